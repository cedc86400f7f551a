#!/usr/bin/env bash
# A new database, runs over it, and stated workloads.
. "$(dirname "$(readlink -f "$0")")/helpers.bash"

# --- new, run, run again
mkdir "$folder/db"
cd "$folder/db" || exit 1
told 'run without files' 9 'fault foreign' '' run 1
told 'new' 0 'ready 16 8 64' '' new 16 8 64
[ "$(stat -c %s face.log face.flash face.disk | tr '\n' ' ')" = '34304 271360 65536 ' ]
verdict 'the files have their lengths' $?
told 'new once more' 0 'ready 16 8 64' '' new 16 8 64
told 'run' 0 'open 0/committed 1/value 0a0b' 'set 5 0a0b/get 5/' run 1
told 'run again' 0 'open 1/value 0a0b/committed 2' 'get 5/set 5 ff' run 1
told 'and again' 0 'open 2/value ff/bye' 'get 5/quit/get 5/' run 4096
told 'new on a used log' 10 'fault notblank log 512' '' new 16 8 64
told 'new of other sizes' 9 'fault foreign' '' new 16 8 65
for words in '' help --help --version 'run 0' 'run 01' 'new 16 8' 'run -- 1'; do
    # shellcheck disable=SC2086
    told "words: $words" 2 'fault words' '' $words
done
told 'nothing was lost by these' 0 'open 2/value ff' 'get 5/' run 1

# --- the sizes of a larger database
mkdir "$folder/large"
cd "$folder/large" || exit 1
told 'new 1024 64 400' 0 'ready 1024 64 400' '' new 1024 64 400
[ "$(stat -c %s face.log face.flash face.disk | tr '\n' ' ')" = '206336 2149376 4194304 ' ]
verdict 'its files have their lengths' $?

# --- a stated workload, twice: each makes its checkpoints where half of the log is used
told 'load' 0 'open 0/load 200 committed 200 checkpoints 2 found 200' '' load 200 7 64
told 'load again' 0 'open 200/load 200 committed 200 checkpoints 2 found 200' '' load 200 7 64

finish
