# Completion of bash for bitbake: options, names of recipes, and tasks behind a colon or an option -c. bin/install puts it where
# bash-completion looks; without that, `. bin/completion.bash`.
#
# Names are those of `bitbake -s` in the current folder, kept for ten seconds; tasks are those of the recipe that `-n` plans, and its functions
# do_.. that `-e` prints. A project that is refused has none. Where no target is typed yet, tasks are those of all lines `addtask`. A task may be
# typed without its do_. Behind `mc:` come the configurations that BBMULTICONFIG names, and behind one of these recipes and tasks as the default one has
# them. Nothing is built for it.

# What the program prints in the current folder.
_bitbake_asks() {
    BITBAKE_NO_BUILD=1 "$program" "$@" 2>/dev/null </dev/null
}

# Sets `found` to the names of all recipes.
_bitbake_names() {
    if [[ ${_bitbake_place-} != "$PWD" || $SECONDS -ge ${_bitbake_until-0} ]]; then
        _bitbake_kept=$(_bitbake_asks -s | cut -d ' ' -f 1)
        _bitbake_place=$PWD
        _bitbake_until=$((SECONDS + 10))
    fi
    found=$_bitbake_kept
}

# Sets `found` to the names of the configurations, each with its colon.
_bitbake_configs() {
    found=$(_bitbake_asks -e | sed -n 's/^BBMULTICONFIG="\(.*\)"$/\1/p' | sed 's/\\[a-z]/ /g' | tr -s ' ' '\n' |
        sed -n 's/^\([A-Za-z0-9_-][A-Za-z0-9_-]*\)$/\1:/p')
}

# Sets `found` to the tasks of the recipe that a name stands for.
_bitbake_tasks() {
    local values pn
    values=$(_bitbake_asks -e "$1") || return
    pn=${values%%$'\n'*}
    found=$({
        sed -n 's/^\(do_[A-Za-z0-9_]*\)="..*"$/\1/p' <<<"$values"
        _bitbake_asks -n "$1" | awk -v pn="task ${pn#\# }:" 'index($0, pn) == 1 { print substr($2, length(pn) - 4) }'
    } | sort -u)
}

# Sets `found` to the tasks of the option -c: those of the target that a line has, or all that files below the current folder add.
_bitbake_tasks_for() {
    is_task=yes
    if [[ -n $1 ]]; then
        _bitbake_tasks "$1"
    else
        found=$(grep -rhE --include='*.bb' --include='*.bbappend' --include='*.bbclass' --include='*.inc' --exclude-dir=build \
            '^[[:space:]]*addtask[[:space:]]' . 2>/dev/null | awk '{
                for (k = 2; k <= NF && $k != "after" && $k != "before"; k++) print ($k ~ /^do_/ ? "" : "do_") $k
            }' | sort -u)
    fi
}

# The reply for what bash has at the cursor. Bash cuts words at colons and equals signs, so the word is taken from the line, and what stands
# in front of its last such sign is left out of the reply.
_bitbake() {
    local program=${1/#\~\//$HOME/} line=${COMP_LINE:0:COMP_POINT} found='' is_task='' word before typed target
    word=${line##*[[:space:]]}
    before=${line%"$word"}
    before=${before%"${before##*[![:space:]]}"}
    before=${before##*[[:space:]]}
    typed=$word
    target=$(_bitbake_target "${line%"$word"}${word:-_}${COMP_LINE:COMP_POINT}")
    case $before,$word in
        -c,* | --cmd,*) _bitbake_tasks_for "$target" ;;
        *,--cmd=*)
            typed=${word#--cmd=}
            _bitbake_tasks_for "$target"
            ;;
        *,-*)
            found='-c -f -k -n -e -s -p -g -q -h --cmd --force --continue --dry-run --environment --show-versions --parse-only --no-setscene --sample --clean --graphviz --why --quiet --help --version --lint'
            ;;
        *,mc:*:*:*)
            typed=${word#mc:*:*:}
            is_task=yes
            before=${word#mc:*:}
            _bitbake_tasks "${before%%:*}"
            ;;
        *,mc:*:*)
            typed=${word#mc:*:}
            _bitbake_names
            ;;
        *,mc:*)
            typed=${word#mc:}
            _bitbake_configs
            [[ -z $found ]] || compopt -o nospace 2>/dev/null
            ;;
        *,*:*)
            typed=${word#*:}
            is_task=yes
            _bitbake_tasks "${word%%:*}"
            ;;
        *) _bitbake_names ;;
    esac
    mapfile -t COMPREPLY < <(compgen -W "$found" -- "$typed")
    if [[ ${#COMPREPLY[@]} -eq 0 && -n $is_task ]]; then
        # (a task's name without do_)
        mapfile -t COMPREPLY < <(compgen -W "${found//do_/}" -- "$typed")
    fi
    before=${word%"$typed"}
    if [[ -n $before && $COMP_WORDBREAKS != *"${before: -1}"* ]]; then
        # (this shell doesn't cut words there)
        COMPREPLY=("${COMPREPLY[@]/#/$before}")
    fi
}

# The first target in a line, without its configuration and its task.
_bitbake_target() {
    local words word skip=yes
    read -ra words <<<"$1"
    for word in "${words[@]}"; do
        if [[ $skip == yes ]]; then
            skip=no
        elif [[ $word == -c || $word == --cmd || $word == --sample ]]; then
            skip=yes
        elif [[ $word != -* ]]; then
            word=${word#mc:*:}
            printf '%s\n' "${word%%:*}"
            return
        fi
    done
}

complete -F _bitbake bitbake
