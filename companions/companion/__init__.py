"""The companions of hkreplay and hkmon. Each module but the shared ones is one subcommand of `hk`."""

VERSION = "1.0"
