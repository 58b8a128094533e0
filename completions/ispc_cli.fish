# Completions of ispc_cli for fish, from what it says by --help, as tools/make_completions writes them.
complete -c ispc_cli -f
complete -c ispc_cli -F
complete -c ispc_cli -l input -r -F -d 'the input of the entry function'
complete -c ispc_cli -l entry -x -d 'the entry function'
complete -c ispc_cli -l width -x -a '4 8 16' -d 'how many lanes a gang has [default: 4]'
complete -c ispc_cli -l history -x -d 'how many events can be taken back [default: 64]'
complete -c ispc_cli -l steps -x -d 'how many moves one command makes at most [default: 1000000]'
complete -c ispc_cli -l lane-pure -d 'reports which functions are lane-pure, and runs nothing'
complete -c ispc_cli -s h -l help -d 'Print help'
