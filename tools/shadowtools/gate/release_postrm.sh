#!/bin/sh
# The user and the journals stay, also where the package is purged.
set -e
if [ -d /run/systemd/system ]; then systemctl daemon-reload; fi
