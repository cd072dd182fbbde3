#!/bin/sh
export SHADOWD_END=/run/shadowd/end
trap 'asked=yes; shadowd end || kill $!' TERM INT
shadowd serve /etc/shadowd/bank.csv /etc/shadowd/plan.txt &
wait $!
status=$?
if [ "$asked" ]; then wait $!; status=$?; fi
exit $status
