#!/bin/sh
# Times messages over memory, in nanoseconds: a head of 20 fields read, found by httparse alone, and written; heads of 64 fields
# and of one long field that come at once and a byte at a time; bodies of 1 MB by length and by chunks, and copied. Prints each
# ratio on a line, and fails where one is above its limit.
set -eu
# The most that each ratio may be: a head of 20 fields to httparse alone; a head that comes a byte at a time to the same head at
# once; a body by length to one copy of it.
head=3
by_byte=40
body=2.3
bench=$(dirname -- "$0")
printed=$("$bench/run.sh" http 'bg_http bg_http_read httparse')
echo "$printed"
echo "$printed" | awk -v head="$head" -v by_byte="$by_byte" -v body="$body" '
    function told(what, name, other) { printf "ratio of %s: %.2f\n", what, time[name] / time[other] }
    function limited(what, name, other, most) {
        printf "ratio of %s: %.2f, at most %s\n", what, time[name] / time[other], most
        above = above || time[name] > most * time[other]
    }
    { time[$1] = $2 }
    END {
        limited("a head of 20 fields to httparse alone", "read_head", "find_head", head)
        told("a head of 20 fields written to httparse alone", "write_head", "find_head")
        limited("a request head of one field by byte to at once", "request_of_one_field_by_byte", "request_of_one_field", by_byte)
        limited("a request head of 64 fields by byte to at once", "request_of_64_fields_by_byte", "request_of_64_fields", by_byte)
        limited("a response head of one field by byte to at once", "response_of_one_field_by_byte", "response_of_one_field", by_byte)
        limited("a response head of 64 fields by byte to at once", "response_of_64_fields_by_byte", "response_of_64_fields", by_byte)
        limited("a request of 1 MB by length to one copy", "request_by_length", "copy", body)
        limited("a response of 1 MB by length to one copy", "response_by_length", "copy", body)
        told("a request of 1 MB by length to a copy in pieces", "request_by_length", "copy_pieces")
        told("a response of 1 MB by length to a copy in pieces", "response_by_length", "copy_pieces")
        told("a request of 1 MB by chunks to a copy in pieces", "request_by_chunks", "copy_pieces")
        exit above
    }'
