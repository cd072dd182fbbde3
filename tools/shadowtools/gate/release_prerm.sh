#!/bin/sh
# Asks each server for its end, and stops streams and followers, before the program is removed. An upgrade leaves them as they are: each is
# started again by hand.
set -e
if [ "$1" = remove ] && [ -d /run/systemd/system ]; then systemctl stop 'shadowd@*.service' 'shadowd-stream@*.service' 'shadowd-follow@*.service'; fi
