"""What the tools of olr-keep have in common. The commands in tools/ put the folder of this package into their path."""
