# The group `workflow` of tests/release: docs/ci-example.yml over repositories that are made here, its steps one after another as GitHub runs
# them. The release is that of tests/release, and Freedoom's file is the one that is there: what would install it only notes its words.
# shellcheck shell=bash disable=SC2154  # what tests/release and harness.bash set

workflow=docs/ci-example.yml

# ---- The steps ------------------------------------------------------------------------------------------------------

# keep_steps FOLDER: the steps, a file each in their order: what is run, or whose action is used.
keep_steps() {
    mkdir "$1"
    awk -v to="$1" '
        /^      - / { number++; inside = 0 }
        match($0, /^(      - |        )uses: /) { print substr($0, RLENGTH + 1) >sprintf("%s/%02d.uses", to, number) }
        /^        run: \|$/ { inside = 1; next }
        inside && /^          / { print substr($0, 11) >sprintf("%s/%02d.run", to, number) }' "$workflow"
}

# The same by a reader of YAML.
steps_by_yaml() {
    mkdir "$room/steps_by_yaml"
    python3 - "$workflow" "$room/steps_by_yaml" <<'PY'
import pathlib, sys, yaml
steps = yaml.safe_load(pathlib.Path(sys.argv[1]).read_text())["jobs"]["check"]["steps"]
for number, step in enumerate(steps, 1):
    for kind in step.keys() & {"run", "uses"}:
        pathlib.Path(sys.argv[2], f"{number:02}.{kind}").write_text(step[kind].rstrip("\n") + "\n")
PY
    diff -r "$room/steps" "$room/steps_by_yaml"
}

# setting NAME: what the workflow has behind that word.
setting() { sed -n "s/^ *$1: //p" "$workflow"; }

# run_step FILE: runs a step, with what steps before it have put on the PATH.
run_step() {
    local path
    path=$(tac "$job/path" | tr '\n' :)$room/tools_of_job:$PATH
    (cd "$job/checkout" && PATH=$path bash --noprofile --norc -eo pipefail "$1")
}

# use_action NAME: what the action does, as far as the workflow goes by it.
use_action() {
    local path
    case $1 in
        actions/checkout@v4) git clone --quiet --depth 1 "file://$room/repositories/${job##*/}" "$job/checkout" ;;
        actions/upload-artifact@v4)
            path=$(setting path | sed "s|\${{ runner.temp }}|$RUNNER_TEMP|")
            [[ ! -e $path ]] || cp -R "$path" "$job/artifact"
            ;;
        *) echo "there is no action $1 here" && return 1 ;;
    esac
}

# run_job REPOSITORY: runs the steps over a repository to the first that fails.
run_job() {
    local step status=0 job=$room/jobs/$1
    export RUNNER_TEMP=$job/temporary GITHUB_PATH=$job/path RELEASE=file://$files/$tarball SHA256 LEVELS OPTIONS BEFORE
    rm -rf "$job"
    mkdir -p "$RUNNER_TEMP"
    : >"$GITHUB_PATH"
    for step in "$room/steps"/*; do
        case $step in
            *.run) run_step "$step" || status=$? ;;
            *) use_action "$(<"$step")" || status=$? ;;
        esac
        ((status == 0)) || break
    done
    return $status
}

digest() { sed -n "s/ .*$tarball\$//p" "$files/SHA256SUMS"; }

# make_tools: what stands in the place of tools that install something.
make_tools() {
    local to=$room/tools_of_job
    mkdir "$to"
    printf '#!/bin/sh\nexec "$@"\n' >"$to/sudo"
    printf '#!/bin/sh\necho "apt-get $*" >>"%s"\n' "$room/installed" >"$to/apt-get"
    chmod +x "$to"/*
}

# ---- Repositories ---------------------------------------------------------------------------------------------------

# change REPOSITORY FILE: makes a repository with a sound file, and another commit with what comes in as FILE. The first commit is the one
# before the change.
change() {
    local at=$room/repositories/$1
    mkdir -p "$at/maps"
    cp "$sample" "$at/maps/kept.wad"
    commit_all "$at"
    git -C "$at" rev-parse HEAD >"$room/before_$1"
    cat >"$at/$2"
    commit_all "$at"
}

# make_repositories: a sound one, four that end the game, two of extended nodes, one without WAD files, and others. What makes levels has the
# names of commands.
make_repositories() (
    # shellcheck source=tests/wads.bash
    . tests/wads.bash
    none=$(words 0 0)$(name8 -)$(name8 NOSUCH)$(name8 -)$(words 0)
    level | change sound maps/changed.wad
    level THINGS '' | change no_start maps/changed.wad
    level SIDEDEFS "$none$(sidedef 1)" | change no_texture maps/changed.wad
    level SECTORS "$(sector)$(sector_of 0 128 NOSUCH)" | change no_flat maps/changed.wad
    level THINGS "${own[THINGS]}$(words 8 16 0 9999 7)" | change no_thing maps/changed.wad
    level NODES "$(bytes "'Z" "'N" "'O" "'D")" | change extended maps/changed.wad
    level NODES "$(bytes "'X" "'N" "'O" "'D")" | change broken maps/changed.wad
    level NODES "$(node 16384 0 0 64 32768 32769)" | change fault maps/changed.wad
    level THINGS '' | change named 'maps/a:b, 100%.Wad'
    head -c 11 "$sample" | change short maps/changed.wad
    echo 'What the levels are about.' | change text README.md
    mkdir "$room/repositories/empty"
    echo 'Nothing yet.' >"$room/repositories/empty/README.md"
    commit_all "$room/repositories/empty"
    git -C "$room/repositories/empty" rev-parse HEAD >"$room/before_empty"
)

# ---- What is wanted -------------------------------------------------------------------------------------------------

# has_line PATTERN: whether the log has such a line.
has_line() {
    local line
    while IFS= read -r line; do
        # shellcheck disable=SC2053  # a pattern
        [[ $line != $1 ]] || return 0
    done <"$room/log"
    return 1
}

lacks_line() { ! has_line "$1"; }

# over STATUS REPOSITORY PATTERN..: whether the job over a repository ends with such a status, and its log has a line of each pattern.
over() {
    local status=0 told='' pattern
    BEFORE=$(<"$room/before_$2")
    run_job "$2" >"$room/log" 2>&1 || status=$?
    for pattern in "${@:3}"; do has_line "$pattern" || told+="no line $pattern"$'\n'; done
    # shellcheck disable=SC2053  # a pattern
    [[ $status == $1 && -z $told ]] || { printf 'status %s\n%s' "$status" "$told" && cat "$room/log" && return 1; }
}

# fails_over REPOSITORY TEXT: whether the job fails, with this text of the changed file in the log and in the annotation of the
# file, an error. That of the other file, which stayed as it was, is a warning.
fails_over() {
    over 1 "$1" "./maps/changed.wad: $2" "::error file=maps/changed.wad::*./maps/changed.wad: $2%0A*" \
        '::warning file=maps/kept.wad::*./maps/kept.wad: E1M1: W1 *' && lacks_line '::error file=maps/kept.wad*'
}

# draws REPOSITORY FILE..: whether the artifact that the job over a repository left shows just these files, with a picture each.
draws() {
    local at=$room/jobs/$1/artifact
    diff <(printf '%s\n' "${@:2}") <(sed 's/^{"file":"\([^"]*\)".*/\1/' "$at/survey.jsonl") &&
        diff <(seq $(($# - 1)) | sed 's/$/-0.svg/') <(cd "$at" && ls -- *.svg) && [[ -s $at/index.html ]]
}

# stops_early REPOSITORY PATTERN: whether the job over a repository fails with such a line, before it draws anything.
stops_early() { over 1 "$@" && [[ ! -e $room/jobs/$1/artifact ]]; }

# ---- The cases ------------------------------------------------------------------------------------------------------

cases_of_ends() {
    check 'the workflow, without a player 1 start' fails_over no_start 'E1M1: N11 level: no player 1 start'
    check 'the workflow, with an unknown texture' fails_over no_texture "E1M1: W9 sidedef 0: lower texture NOSUCH isn't there, of linedef 0"
    check 'the workflow, with an unknown flat' fails_over no_flat "E1M1: W10 sector 1: ceiling flat NOSUCH isn't there"
    check 'the workflow, with an unknown thing' fails_over no_thing "E1M1: W11 thing 1: type 9999 is none of the game's, at (8, 16)"
    check 'the workflow, with a fault' fails_over fault 'E1M1: F12 node 0: origin (16384, 0) is outside -16384 to 16383'
    check 'and its atlas' draws fault maps/changed.wad
}

# Nobody takes what isn't judged for sound.
cases_of_unjudged() {
    check 'the workflow, over extended nodes' over '[12]' extended './maps/changed.wad: E1M1: extended nodes ZNOD: not read' \
        '::error file=maps/changed.wad::./maps/changed.wad: E1M1: extended nodes ZNOD: not read*, 1 not judged*' \
        '2 levels in 2 files: *, 1 not judged*'
    check 'the workflow, over broken nodes' over 1 broken './maps/changed.wad: E1M1: extended nodes XNOD: NODES ends within its vertexes' \
        '::error file=maps/changed.wad::./maps/changed.wad: E1M1: extended nodes XNOD: NODES ends within its vertexes*, 1 not judged*' \
        '2 levels in 2 files: *, 1 not judged*'
    check 'the workflow, over a file that is cut short' over 2 short 'wadlens: ./maps/changed.wad: shorter than a WAD header' \
        '::error file=maps/changed.wad::*wadlens: ./maps/changed.wad: shorter than a WAD header%0A*'
}

cases_of_names() {
    local LEVELS=maps
    check 'the workflow, in a folder' over 1 no_start 'maps/changed.wad: E1M1: N11 level: no player 1 start' \
        '::error file=maps/changed.wad::maps/changed.wad: E1M1: N11 *'
    check 'and its atlas' draws no_start maps/changed.wad
    LEVELS=.
    check 'the workflow, with marks in a name' over 1 named './maps/a:b, 100%.Wad: E1M1: N11 level: no player 1 start' \
        '::error file=maps/a%3Ab%2C 100%25.Wad::./maps/a:b, 100%25.Wad: E1M1: N11 level: no player 1 start%0A*'
    check 'and its atlas' draws named 'maps/a:b, 100%.Wad'
}

cases_of_changes() {
    check 'the workflow, with no WAD file changed' over 0 text '1 levels in 1 files: 0 faults, *'
    check 'and no atlas' [ ! -e "$room/jobs/text/artifact" ]
    printf '%040d\n' 0 >"$room/before_sound"
    check 'the workflow, with no commit before' over 0 sound '2 levels in 2 files: 0 faults, *'
    check 'and its atlas' draws sound ./maps/changed.wad ./maps/kept.wad
}

cases_of_refusals() {
    local LEVELS=$LEVELS SHA256=$SHA256
    check 'the workflow, without WAD files' stops_early empty '::error::there is no WAD file in .'
    LEVELS=none
    check 'the workflow, with no such folder' stops_early sound 'find: *none*: No such file or directory'
    LEVELS=. SHA256=$(tr 0-9a-f 0 <<<"$SHA256")
    check 'the workflow, with another release' stops_early sound '*wadlook.tar.gz: FAILED'
}

cases_of_workflow() {
    local LEVELS OPTIONS SHA256 BEFORE=''
    wants curl 'the workflow' || return
    [[ -e $games/freedoom2.wad ]] || { skipped 'there is no freedoom2.wad' 'the workflow' && return; }
    keep_steps "$room/steps"
    if python3 -c 'import yaml' 2>/dev/null; then
        check 'the steps of the workflow, by a reader of YAML' steps_by_yaml
    else
        skipped 'there is no yaml for Python' 'the steps of the workflow, by a reader of YAML'
    fi
    LEVELS=$(setting LEVELS) OPTIONS=$(setting OPTIONS) SHA256=$(digest)
    OPTIONS=${OPTIONS//'/usr/share/games/doom'/$games}
    make_tools
    make_repositories
    check 'the workflow, over sound levels' over 0 sound '2 levels in 2 files: 0 faults, 0 notes, *, 0 not judged*' \
        '::warning file=maps/changed.wad::*./maps/changed.wad: E1M1: W1 *' '::warning file=maps/kept.wad::*./maps/kept.wad: E1M1: W1 *'
    check 'and no error' lacks_line '::error*'
    check 'and its atlas' draws sound maps/changed.wad
    check "the game's file" grep -qx 'apt-get install --yes freedoom' "$room/installed"
    cases_of_ends
    cases_of_unjudged
    cases_of_names
    cases_of_changes
    cases_of_refusals
}
