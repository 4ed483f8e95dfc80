# Completions of sazh for bash, made by tests/sazh/completions.py from its --help.
_sazh() {
    local word=${COMP_WORDS[COMP_CWORD]} before=${COMP_WORDS[COMP_CWORD - 1]} options='' commands=''
    case $before in
        --identity|--output|--passphrase-file|--recipients-file|-R|-i|-o|-p) mapfile -t COMPREPLY < <(compgen -f -- "$word"); return ;;
        --count|--from|--header-limit|--recipient|-r) return ;;
    esac
    case ${COMP_WORDS[1]} in
        keygen) options='-o --output -f --force --no-sync -q --quiet -y --recipients -h --help' ;;
        encrypt) options='-r --recipient -R --recipients-file -a --armor -i --identity -p --passphrase-file -o --output -f --force --no-sync -q --quiet -h --help' ;;
        decrypt) options='-i --identity -p --passphrase-file --header-limit -o --output -f --force --no-sync -q --quiet -h --help' ;;
        part) options='-i --identity -p --passphrase-file --header-limit -q --quiet --from --count -h --help' ;;
        migrate) options='-i --identity -p --passphrase-file --header-limit -o --output -f --force --no-sync -q --quiet -h --help' ;;
        rekey) options='-r --recipient -R --recipients-file -a --armor -i --identity -p --passphrase-file --header-limit -o --output -f --force --no-sync -q --quiet -h --help' ;;
        verify) options='-i --identity -p --passphrase-file --header-limit -q --quiet -h --help' ;;
        inspect) options='-i --identity -p --passphrase-file --header-limit --json -h --help' ;;
        *) options='-e --encrypt -d --decrypt -r --recipient -R --recipients-file -a --armor -i --identity -p --passphrase-file --header-limit -o --output -f --force --no-sync -q --quiet -h --help -V --version' ;;
    esac
    [[ $COMP_CWORD -ne 1 ]] || commands='keygen encrypt decrypt part migrate rekey verify inspect'
    if [[ $word == -* ]]; then
        mapfile -t COMPREPLY < <(compgen -W "$options" -- "$word")
    else
        mapfile -t COMPREPLY < <(compgen -W "$commands" -- "$word"; compgen -f -- "$word")
    fi
}
complete -o filenames -F _sazh sazh
