"""The commands of the tool. Each module has `register(subparsers)`, which declares its commands."""
