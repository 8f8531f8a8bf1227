#!/bin/sh
# Turns a study or a drawn tree that is written as hexadecimal text, with comments behind '#', into its bytes.
sed 's/#.*//' "$@" | xxd -r -p
