# shellcheck shell=bash
# Completion of dexasm and its helpers for bash, written by tools/generate: source it, or put it into /etc/bash_completion.d.
_dexasm() {
  local word=${COMP_WORDS[COMP_CWORD]} words
  case ${COMP_WORDS[1]-} in
    check) words='--output --help' ;;
    list) words='--output --help' ;;
    assemble) words='--output --align --help' ;;
    strip) words='--output --help' ;;
    *) words='check list assemble strip --help --version' ;;
  esac
  if ((COMP_CWORD == 1)) || [[ $word == -* ]]; then
    mapfile -t COMPREPLY < <(compgen -W "$words" -- "$word")
  else
    mapfile -t COMPREPLY < <(compgen -f -- "$word")
  fi
}
_dexasm_helper() {
  local name=${COMP_WORDS[0]##*/} word=${COMP_WORDS[COMP_CWORD]} first='' options='' words=''
  case $name in
    dexasm-apk) first='check list strip extract replace' options='--help --version --close --allow-empty --quiet --output' ;;
    dexasm-browse) first='' options='--help --version --output --graphs' ;;
    dexasm-check) first='' options='--help --version --json --sarif --github --junit --program --lint --explain --quiet --allow-empty --color --jobs --seconds --memory --paths-from --exclude --baseline' ;;
    dexasm-close) first='' options='--help --version --output --in-place --quiet --check' ;;
    dexasm-corpus) first='add merge sum refused same classes callers strings libraries' options='--help --version --processes --seconds --memory --scheduler --again --strict --allow-empty --send --trust --verify --json --csv --csv-raw --pattern --known --classes' ;;
    dexasm-diff) first='' options='--help --version --names --color --textconv --json' ;;
    dexasm-explain) first='' options='--help --version --json' ;;
    dexasm-graph) first='' options='--help --version --calls --from --to --depth --format' ;;
    dexasm-info) first='' options='--help --version --json --hex' ;;
    dexasm-lint) first='' options='--help --version --json --sarif --code --skip-boot --allow-empty --jobs --seconds' ;;
    dexasm-merge) first='' options='--help --version --same --replace --fit --quiet --output' ;;
    dexasm-query) first='classes strings calls fields outside tables show uses find' options='--help --version --addresses --kinds --lines --strings --insns' ;;
    dexasm-rename) first='' options='--help --version --mapping --forward --quiet --output' ;;
    dexasm-size) first='' options='--help --version --by --sort --html --count --json --csv --csv-raw' ;;
    dexasm-split) first='' options='--help --version --join --quiet' ;;
  esac
  case $name/${COMP_WORDS[COMP_CWORD - 1]} in
    dexasm-browse/--graphs) words='all' ;;
    dexasm-check/--color) words='auto always never' ;;
    dexasm-diff/--color) words='auto always never' ;;
    dexasm-graph/--format) words='dot svg json' ;;
    dexasm-size/--by) words='package class method string' ;;
    dexasm-size/--sort) words='total code strings tables values debug unused strip methods defined fields types name' ;;
    *) if [[ $word == -* ]]; then words=$options; elif ((COMP_CWORD == 1)); then words=$first; fi ;;
  esac
  if [ -n "$words" ]; then
    mapfile -t COMPREPLY < <(compgen -W "$words" -- "$word")
  else
    mapfile -t COMPREPLY < <(compgen -f -- "$word")
  fi
}
complete -o filenames -F _dexasm dexasm
complete -o filenames -F _dexasm_helper dexasm-apk dexasm-browse dexasm-check dexasm-close dexasm-corpus dexasm-diff dexasm-explain dexasm-graph dexasm-info dexasm-lint dexasm-merge dexasm-query dexasm-rename dexasm-size dexasm-split
