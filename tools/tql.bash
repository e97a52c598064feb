# Completions of tql and its tools for bash: source this file, or let bash-completion find it (make install).
_tql() {
    local current=${COMP_WORDS[COMP_CWORD]} previous=${COMP_WORDS[COMP_CWORD - 1]} words= pattern='*'
    case $1:$previous in
        *:--format) words='table box csv json jsonl' ;;
        *:--to) words='mariadb postgresql' ;;
        *:--dates) words='dmy mdy' ;;
        *:--separator) words='tab' ;;
        tql:--journal | tql:--verify | */tql:--journal | */tql:--verify) pattern='*.jn' ;;
        *:-c | *:--command | *:--memory | *:--key | *:--columns | *:--cents | *:--title) return ;;
        tql:* | */tql:* | *tql-shell:*) pattern='*.sql' words='--check --bail --interactive --quiet --plans --echo --titles --memory --format --journal --verify --command --help --version' ;;
        *tql-csv:*) pattern='*.csv' words='--create --columns --cents --key --period --versioned --at --start --end --separator --decimal --dates
            --encoding --help' ;;
        *tql-cents:*) words='--comma --help' ;;
        *tql-timeline:*) words='--key --value --valid --known --money --as-of --on --title --svg --help' ;;
        *tql-export:*) pattern='*.sql' words='--to --program --help' ;;
    esac
    [[ $current == -* || $words != *--* ]] || words=
    COMPREPLY=($(compgen -W "$words" -- "$current"))
    [[ $current == -* || ${#COMPREPLY[@]} -gt 0 ]] || COMPREPLY=($(compgen -f -X "!$pattern" -- "$current") $(compgen -d -- "$current"))
}
complete -o filenames -F _tql tql tql-shell tql-csv tql-cents tql-timeline tql-export
