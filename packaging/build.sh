# How the launcher `tscache` builds what answers, with proofs or without. It takes this in where a
# program is to be built.

# begin HOW FOLDER: waits until nobody else builds the same. A lock on a folder makes no file, and
# ends with the process that holds it.
begin() {
    new=$out/tscache.$1.new
    command -v rt >/dev/null ||
        give_up 127 "the Rattle toolchain is missing: its command rt is not on the PATH"
    command -v python3 >/dev/null ||
        give_up 69 "Python is missing: its command python3 is not on the PATH"
    exec 9<"$2"
    flock -n 9 || {
        say "waiting for another build here"
        waited flock 9 || give_up 70 "no lock can be had on $2"
    }
    read_sums
    kit=$(rt version </dev/null 2>/dev/null)
}

# write COMMAND..: runs a command that writes to `out`, and ends with why it fails.
write() {
    why=$(LC_ALL=C && export LC_ALL && "$@" 2>&1) && return
    rm -f "$new" "$new.stamp"
    case $why in
    *'No space left on device'* | *'quota exceeded'*) status=74 ;;
    *) status=73 ;;
    esac
    give_up "$status" "nothing can be written to $out: ${why##*: }"
}

# Takes the program that was just built, with its stamp.
keep() {
    [ "$(source_sums)" = "$sums" ] || {
        rm -f "$new"
        give_up 70 "a source was changed meanwhile, so what was built is not taken: call it again"
    }
    write stamp
    write mv -f "$new.stamp" "${new%.new}.stamp"
    write mv -f "$new" "${new%.new}"
}

stamp() { printf '%s\n' "$sums" "$(cksum <"$new")" "kit $kit" | tee "$new.stamp" >/dev/null; }

# Builds the program without proofs, where nobody else has done so meanwhile.
build_unproved() {
    begin unproved "$root/crates/tscache"
    is_fresh unproved || {
        # (left by a build that was killed)
        rm -rf "$out"/unproved-*
        waited "$root/scripts/build" unproved tscache "$new" tscache 9<&- </dev/null || {
            status=$?
            case $status in 7[034]) exit "$status" ;; esac
            give_up 70 "the program was not built: it ended with status $status"
        }
        keep
    }
    exec 9<&-
}

# Proves and builds the program, crate after crate, whose words go to a log.
prove() {
    begin proved "$root/crates"
    began=$(date +%s)
    if is_fresh proved && [ "$(tail -n 1 "$out/tscache.proved.stamp")" = "kit $kit" ]; then
        told="nothing has changed since the program was proved and built"
    else
        say "proving and building what has changed; from nothing that takes $cost"
        write mkdir -p -- "$out"
        all=$(crates | wc -l) at=0
        for crate in $(crates); do
            say "$((at += 1)) of $all: $crate"
            case $crate in
            tscache) prove_crate run -- replay data/trace.json ;;
            *) prove_crate lib ;;
            esac
        done
        write cp -p -- "$out/tscache" "$new"
        keep
        told="proved and built in $(($(date +%s) - began)) seconds"
    fi
    rm -f "$out/tscache.unproved" "$out/tscache.unproved.stamp"
    say "$told"
    exit
}

# prove_crate WORD..: has rt prove and build one crate. Of a failure it shows the first error, since
# those after it mostly follow from that.
prove_crate() {
    log=$out/tscache.log
    write begin_log "$@"
    waited rt_in "$crate" "$@" >>"$log" 2>&1 9<&- </dev/null && return
    status=$?
    say "$crate was not built; the log is $log"
    ! why=$(grep -m 1 'No space left on device' "$log") || give_up 74 "$why"
    why=$(grep -m 1 ' error[:[]\|^error\|it is not proved\|: no proof: ' "$log" ||
        sed 1d "$log" | tail -n 1)
    why=${why#so far: } why=${why#note: }
    give_up 70 "${why:-rt told nothing, and ended with status $status}"
}

# (A full disk takes an empty file, and then not a byte of why a proof failed.)
begin_log() { echo "rt $*, in $crate" | tee "$log" >/dev/null; }

rt_in() { cd "$root/crates/$1" && shift && exec rt "$@"; }
