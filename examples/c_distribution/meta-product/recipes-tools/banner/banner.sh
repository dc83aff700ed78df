#!/bin/sh
# Prints a title.
printf '== %s ==\n' "$1"
