"""The version of this module, which is that of include/gougelily.h and of the library."""

VERSION = "1.0.3"
