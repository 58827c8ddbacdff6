"""`python3 -m cssmin_proved`: the program, with its own words."""

from . import main

main()
