"""What the programs under tools/, bench/ and .ci/ share. It needs Python 3.11 and nothing besides."""
