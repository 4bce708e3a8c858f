#!/bin/sh
# An analysis: asks the service at port $1 of 127.0.0.1 ten times. It fails (status 1) where one request of them isn't
# answered 200.
for _ in 1 2 3 4 5 6 7 8 9 10; do
    code=$(curl -s -o /dev/null -m 5 -w '%{http_code}' "http://127.0.0.1:$1/") || exit 1
    [ "$code" = 200 ] || exit 1
    sleep 0.2
done
