# Completions of bash for the programs of Strata.
_strata() {
    local word=${COMP_WORDS[COMP_CWORD]} before=${COMP_WORDS[COMP_CWORD - 1]}
    local sizes="--units --fast --block --slow" words=
    case $before in
        --disk|--image) mapfile -t COMPREPLY < <(compgen -f -- "$word"); return ;;
        --uid) mapfile -t COMPREPLY < <(compgen -u -- "$word"); return ;;
        --gid) mapfile -t COMPREPLY < <(compgen -g -- "$word"); return ;;
        --units|--fast|--block|--slow|--client|--fmask|--dmask|--clock) return ;;
    esac
    case ${COMP_WORDS[0]##*/} in
        mkfs.strata) words="--help $sizes" ;;
        fsck.strata) words="-a -f -n -p -r -v -y" ;;
        strata_fuse) words="--help --disk --client --uid --gid --fmask --dmask --clock $sizes" ;;
        strata_check) words="--help" ;;
        strata_sh) words=$(strata_sh --help 2>/dev/null | grep -o -- ' --[a-z-]*' | sort -u) ;;
    esac
    if [[ $word == -* ]]; then
        mapfile -t COMPREPLY < <(compgen -W "$words" -- "$word")
    else
        mapfile -t COMPREPLY < <(compgen -f -- "$word")
    fi
}
complete -F _strata mkfs.strata fsck.strata strata_fuse strata_check strata_sh
