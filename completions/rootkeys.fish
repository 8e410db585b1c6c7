# Made by host/run-docs.
complete -c rootkeys -l json -d 'an object of JSON a line'
complete -c rootkeys -s h -l help -d 'print the help'
complete -c rootkeys -l version -d 'print the version, the requests that change verdicts and are in, the commit and the toolchain'
