"""The commands of `lv`, one a module: its text is its description, and it has HELP, add_arguments and run."""
