#include "fields.h"

#include "requests.h"

#include <string.h>

/* What each request has. */
static const char *const common[] = {"version", "id", "request", "by"};

static bool is_common(const char *name)
{
    for (unsigned i = 0; i < sizeof common / sizeof common[0]; i++)
        if (!strcmp(common[i], name))
            return true;
    return false;
}

static bool is_known(const char *name, const struct field *fields)
{
    for (unsigned i = 0; i < MOST_FIELDS && fields[i].name; i++)
        if (!strcmp(fields[i].name, name))
            return true;
    return is_common(name);
}

static json_t *unknown_field(const json_t *request, const struct field *fields)
{
    const char *name;
    json_t *value;
    json_object_foreach((json_t *)request, name, value)
    {
        if (!is_known(name, fields))
            return request_refusal("unknown-field", name, "this request has no such field");
    }
    return NULL;
}

/* Whether a number is that of whole pages, as many as 32 bits count but the last number, which says
 * that there is no limit. */
static bool is_pages(const json_t *value)
{
    json_int_t bytes = json_integer_value(value);
    return json_is_integer(value) && bytes >= 0 && bytes % PAGE_BYTES == 0 &&
           bytes / PAGE_BYTES < UINT32_MAX;
}

/* Why a value is no limit of the kernel's; NULL: it is one. */
static const char *kernel_limit_fault(const json_t *value, struct guest_limit *limit)
{
    if (json_is_string(value) && strcmp(json_string_value(value), "none") != 0)
        return limit_read(json_string_value(value), limit);
    *limit = (struct guest_limit){LIMIT_NONE, ""};
    return json_is_null(value) ? NULL : "cgroup:PATH, tmpfs:MOUNT, or null";
}

/* Why a value is no user's; NULL: it is one's, or null. */
static const char *user_fault(const json_t *value, uint32_t *user)
{
    json_int_t number = json_integer_value(value);
    if (json_is_string(value) && strcmp(json_string_value(value), "none") != 0)
        return owner_read(json_string_value(value), user);
    bool is_number = json_is_integer(value) && number >= 0 && number < ANY_USER;
    *user = is_number ? (uint32_t)number : ANY_USER;
    return is_number || json_is_null(value) ? NULL : "a user's name or number, or null";
}

static json_t *wrong_field(const json_t *value, const struct field *field)
{
    static const char pages[] = "a whole number of bytes in pages of 4096, up to 17592186036224";
    uint64_t number =
        json_integer_value(value) < 0 ? UINT64_MAX : (uint64_t)json_integer_value(value);
    struct guest_limit limit;
    uint32_t user;
    const char *fault;
    switch (field->kind) {
    case FIELD_NAME:
        return json_is_string(value) ? NULL : request_refusal("bad-field", field->name, "a string");
    case FIELD_BYTES:
        return is_pages(value) ? NULL : request_refusal("bad-field", field->name, "%s", pages);
    case FIELD_LIMIT:
        return is_pages(value) || json_is_null(value)
                   ? NULL
                   : request_refusal("bad-field", field->name, "%s, or null", pages);
    case FIELD_BOOLEAN:
        return json_is_boolean(value) ? NULL
                                      : request_refusal("bad-field", field->name, "true or false");
    case FIELD_KERNEL_LIMIT:
        fault = kernel_limit_fault(value, &limit);
        return fault ? request_refusal("bad-field", field->name, "%s", fault) : NULL;
    case FIELD_USER:
        fault = user_fault(value, &user);
        return fault ? request_refusal("bad-field", field->name, "%s", fault) : NULL;
    default:
        if (json_is_integer(value) && number >= field->least && number <= field->most)
            return NULL;
        return request_refusal("bad-field", field->name, "a whole number from %llu to %llu",
                               (unsigned long long)field->least, (unsigned long long)field->most);
    }
}

json_t *fields_refusal(const json_t *request, const struct field fields[MOST_FIELDS])
{
    json_t *refusal = unknown_field(request, fields);
    for (unsigned i = 0; i < MOST_FIELDS && fields[i].name && !refusal; i++) {
        const json_t *value = json_object_get(request, fields[i].name);
        if (value)
            refusal = wrong_field(value, &fields[i]);
        else if (fields[i].needed)
            refusal = request_refusal("missing-field", fields[i].name, "this request needs it");
    }
    return refusal;
}

const char *field_that_changes(const json_t *request, const struct field fields[MOST_FIELDS])
{
    for (unsigned i = 0; i < MOST_FIELDS && fields[i].name; i++)
        if (fields[i].effect == CHANGES && field_is_there(request, fields[i].name))
            return fields[i].name;
    return NULL;
}

bool field_is_there(const json_t *request, const char *name)
{
    return json_object_get(request, name) != NULL;
}

const char *field_name(const json_t *request, const char *name)
{
    return json_string_value(json_object_get(request, name));
}

uint32_t field_pages(const json_t *request, const char *name)
{
    const json_t *value = json_object_get(request, name);
    return json_is_null(value) ? UINT32_MAX : (uint32_t)(json_integer_value(value) / PAGE_BYTES);
}

uint64_t field_number(const json_t *request, const char *name)
{
    const json_t *value = json_object_get(request, name);
    return json_is_boolean(value) ? json_is_true(value) : (uint64_t)json_integer_value(value);
}

struct guest_limit field_kernel_limit(const json_t *request, const char *name)
{
    struct guest_limit limit;
    kernel_limit_fault(json_object_get(request, name), &limit);
    return limit;
}

uint32_t field_user(const json_t *request, const char *name)
{
    uint32_t user;
    user_fault(json_object_get(request, name), &user);
    return user;
}
