# Completion of dexasm and its helpers for fish, written by tools/generate: put it into ~/.config/fish/completions.
complete -c dexasm -n __fish_use_subcommand -f -a check -d 'Checks whether a .dex file keeps every rule of its format'
complete -c dexasm -n __fish_use_subcommand -f -a list -d 'Disassembles: prints the program of a .dex file as a listing'
complete -c dexasm -n __fish_use_subcommand -f -a assemble -d 'Assembles: turns a listing into a .dex file'
complete -c dexasm -n __fish_use_subcommand -f -a strip -d 'Rewrites a .dex file without the parts that its program does not need'
complete -c dexasm -n __fish_use_subcommand -f -s V -l version -d 'Print version'
complete -c dexasm -s h -l help -d 'Print help'
complete -c dexasm -n '__fish_seen_subcommand_from check' -r -F -s o -l output -d 'Write to OUT instead of standard output; OUT is replaced only when the output is complete'
complete -c dexasm -n '__fish_seen_subcommand_from list' -r -F -s o -l output -d 'Write to OUT instead of standard output; OUT is replaced only when the output is complete'
complete -c dexasm -n '__fish_seen_subcommand_from assemble' -r -F -s o -l output -d 'Write to OUT instead of standard output; OUT is replaced only when the output is complete'
complete -c dexasm -n '__fish_seen_subcommand_from assemble' -f -l align -d 'Put a nop before each payload at an odd address'
complete -c dexasm -n '__fish_seen_subcommand_from strip' -r -F -s o -l output -d 'Write to OUT instead of standard output; OUT is replaced only when the output is complete'
complete -c dexasm-apk -n __fish_use_subcommand -a 'check list strip extract replace'
complete -c dexasm-apk -l help
complete -c dexasm-apk -l version
complete -c dexasm-apk -l close
complete -c dexasm-apk -l allow-empty
complete -c dexasm-apk -l quiet
complete -c dexasm-apk -l output -r -F
complete -c dexasm-browse -l help
complete -c dexasm-browse -l version
complete -c dexasm-browse -l output -r -F
complete -c dexasm-browse -l graphs -x -a 'all'
complete -c dexasm-check -l help
complete -c dexasm-check -l version
complete -c dexasm-check -l json
complete -c dexasm-check -l sarif
complete -c dexasm-check -l github
complete -c dexasm-check -l junit
complete -c dexasm-check -l program
complete -c dexasm-check -l lint
complete -c dexasm-check -l explain
complete -c dexasm-check -l quiet
complete -c dexasm-check -l allow-empty
complete -c dexasm-check -l color -x -a 'auto always never'
complete -c dexasm-check -l jobs
complete -c dexasm-check -l seconds
complete -c dexasm-check -l memory
complete -c dexasm-check -l paths-from
complete -c dexasm-check -l exclude
complete -c dexasm-check -l baseline
complete -c dexasm-close -l help
complete -c dexasm-close -l version
complete -c dexasm-close -l output -r -F
complete -c dexasm-close -l in-place
complete -c dexasm-close -l quiet
complete -c dexasm-close -l check
complete -c dexasm-corpus -n __fish_use_subcommand -a 'add merge sum refused same classes callers strings libraries'
complete -c dexasm-corpus -l help
complete -c dexasm-corpus -l version
complete -c dexasm-corpus -l processes
complete -c dexasm-corpus -l seconds
complete -c dexasm-corpus -l memory
complete -c dexasm-corpus -l scheduler
complete -c dexasm-corpus -l again
complete -c dexasm-corpus -l strict
complete -c dexasm-corpus -l allow-empty
complete -c dexasm-corpus -l send
complete -c dexasm-corpus -l trust
complete -c dexasm-corpus -l verify
complete -c dexasm-corpus -l json
complete -c dexasm-corpus -l csv
complete -c dexasm-corpus -l csv-raw
complete -c dexasm-corpus -l pattern
complete -c dexasm-corpus -l known
complete -c dexasm-corpus -l classes
complete -c dexasm-diff -l help
complete -c dexasm-diff -l version
complete -c dexasm-diff -l names
complete -c dexasm-diff -l color -x -a 'auto always never'
complete -c dexasm-diff -l textconv
complete -c dexasm-diff -l json
complete -c dexasm-explain -l help
complete -c dexasm-explain -l version
complete -c dexasm-explain -l json
complete -c dexasm-graph -l help
complete -c dexasm-graph -l version
complete -c dexasm-graph -l calls
complete -c dexasm-graph -l from
complete -c dexasm-graph -l to
complete -c dexasm-graph -l depth
complete -c dexasm-graph -l format -x -a 'dot svg json'
complete -c dexasm-info -l help
complete -c dexasm-info -l version
complete -c dexasm-info -l json
complete -c dexasm-info -l hex
complete -c dexasm-lint -l help
complete -c dexasm-lint -l version
complete -c dexasm-lint -l json
complete -c dexasm-lint -l sarif
complete -c dexasm-lint -l code
complete -c dexasm-lint -l skip-boot
complete -c dexasm-lint -l allow-empty
complete -c dexasm-lint -l jobs
complete -c dexasm-lint -l seconds
complete -c dexasm-merge -l help
complete -c dexasm-merge -l version
complete -c dexasm-merge -l same
complete -c dexasm-merge -l replace
complete -c dexasm-merge -l fit
complete -c dexasm-merge -l quiet
complete -c dexasm-merge -l output -r -F
complete -c dexasm-query -n __fish_use_subcommand -a 'classes strings calls fields outside tables show uses find'
complete -c dexasm-query -l help
complete -c dexasm-query -l version
complete -c dexasm-query -l addresses
complete -c dexasm-query -l kinds
complete -c dexasm-query -l lines
complete -c dexasm-query -l strings
complete -c dexasm-query -l insns
complete -c dexasm-rename -l help
complete -c dexasm-rename -l version
complete -c dexasm-rename -l mapping
complete -c dexasm-rename -l forward
complete -c dexasm-rename -l quiet
complete -c dexasm-rename -l output -r -F
complete -c dexasm-size -l help
complete -c dexasm-size -l version
complete -c dexasm-size -l by -x -a 'package class method string'
complete -c dexasm-size -l sort -x -a 'total code strings tables values debug unused strip methods defined fields types name'
complete -c dexasm-size -l html -r -F
complete -c dexasm-size -l count
complete -c dexasm-size -l json
complete -c dexasm-size -l csv
complete -c dexasm-size -l csv-raw
complete -c dexasm-split -l help
complete -c dexasm-split -l version
complete -c dexasm-split -l join
complete -c dexasm-split -l quiet
