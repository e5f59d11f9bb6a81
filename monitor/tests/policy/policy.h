/* What the parts of policy.c share. */
#ifndef POLICY_H
#define POLICY_H
#include "../../reference/calls.h"
#include <stdbool.h>

/* rows.c: hosts of three guests. tiers.c: what one guest can give. */
void check_rows(void);
void check_tiers(void);
void check_refused(void);

/* pressure.c: when a guest is pressed. */
void check_pressure(void);

/* machine.c: the budget on a machine with other work. */
void check_machine(void);
void check_machine_chance(unsigned long long machines);

/* Random figures, and random samples, beside the plain implementation. */
void check_chance(unsigned long long decisions);
void check_pressed_chance(unsigned long long samples);

/* A random number below that. */
uint32_t policy_chance(uint32_t below);
#endif
