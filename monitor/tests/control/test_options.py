"""Command lines of a host and of its guests' processes."""

import os

import pytest
from program_words import demand_options_taken


@pytest.mark.parametrize("name", ("vhost_user_host", "vhost_user_balloon"))
def test_each_option_that_the_help_names_is_taken(program, name):
    demand_options_taken(os.path.join(os.path.dirname(program), name))
