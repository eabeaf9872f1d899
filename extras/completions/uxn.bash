# Completion of `uxn` and of its tools for bash: source it, or copy it to ~/.local/share/bash-completion/completions/uxn

# What `compgen` answers.
_uxn_reply() {
    local line
    COMPREPLY=()
    while IFS= read -r line; do
        [[ -z $line ]] || COMPREPLY+=("$line")
    done <<<"$(compgen "$@")"
}

# facts: words
_uxn_commands='play debug asm dis gen line'

_uxn_options_of() {
    case $1 in
    play) echo '--rom --budget --script --root --frames --samples --report' ;;
    debug) echo '--commands --log --symbols --rom --budget --script --root --frames --samples --report' ;;
    asm) echo '--out --symbols --listing' ;;
    dis) echo '--symbols' ;;
    esac
}
# facts end

# The words that complete those of `uxn` behind the place $1, where its command stands.
_uxn_words() {
    local word=${COMP_WORDS[COMP_CWORD]}
    if [[ $COMP_CWORD -eq $1 ]]; then
        _uxn_reply -W "$_uxn_commands" -- "$word"
        return
    fi
    case ${COMP_WORDS[COMP_CWORD - 1]} in
    --budget) return ;;
    --root)
        _uxn_reply -d -- "$word"
        return
        ;;
    esac
    [[ ${COMP_WORDS[$1]} == gen || " $_uxn_commands " != *" ${COMP_WORDS[$1]} "* ]] ||
        _uxn_options_or_files "$(_uxn_options_of "${COMP_WORDS[$1]}")"
}

_uxn_options_or_files() {
    local word=${COMP_WORDS[COMP_CWORD]}
    if [[ $word == -* ]]; then
        _uxn_reply -W "$1" -- "$word"
    else
        _uxn_reply -f -- "$word"
    fi
}

_uxn() {
    COMPREPLY=()
    _uxn_words 1
}

# A tool: the options that its --help names, and files.
_uxn_tool() {
    COMPREPLY=()
    _uxn_options_or_files "$(_uxn_options "$1")"
}

_uxn_options() {
    "$1" --help 2>/dev/null </dev/null | sed -nE 's/^ +(-[a-zA-Z],? [^-]*)?(--[a-z-]+).*/\2/p' | sort -u
}

# uxn-sandbox: its own options, and then what `uxn` takes.
_uxn_sandbox() {
    local at=1
    COMPREPLY=()
    while [[ $at -lt $COMP_CWORD && ${COMP_WORDS[at]} == -* ]]; do
        [[ ${COMP_WORDS[at]} == *=* ]] || at=$((at + 1))
        at=$((at + 1))
    done
    if [[ $at -lt $COMP_CWORD || $at -eq $COMP_CWORD && ${COMP_WORDS[at]} != -* ]]; then
        _uxn_words "$at"
    elif [[ $at -eq $COMP_CWORD ]]; then
        _uxn_options_or_files "$(_uxn_options "$1")"
    elif [[ ${COMP_WORDS[COMP_CWORD - 1]} == --isolation ]]; then
        _uxn_reply -W 'auto need none' -- "${COMP_WORDS[COMP_CWORD]}"
    fi
}

complete -o filenames -F _uxn uxn
complete -o filenames -F _uxn_sandbox uxn-sandbox
complete -o filenames -F _uxn_tool uxn-test uxn-misses uxn-record uxn-watch uxn-trace uxn-listing uxn-cover uxn-needs \
    uxn-fuzz uxn-profile uxn-film uxn-check uxn-debug uxn-dap uxn-lsp uxn-lint uxn-fmt uxn-explain uxn-frames-to-png \
    uxn-samples-to-wav uxn-text-to-script uxn-manual
