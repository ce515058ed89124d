"""One module for each subcommand: SUMMARY, arguments(parser) and run(arguments)."""
