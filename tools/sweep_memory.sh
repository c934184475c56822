#!/usr/bin/env bash
# Refuses each allocation in turn in the tests named memory_..: a library that is loaded before the C library's `malloc` and `realloc` has the test's
# process forked at each of their calls. In the child that call is refused and no other, and the child runs to its end, which has to be good; the parent
# waits for it, and goes on without a refusal. So the first allocation is refused, then the second, and so on until a run, the parent's, meets none, and
# what comes before an allocation is run once. A test has to meet so many refusals at least, so that it can't pass by meeting none.
#
# tools/sweep_memory.sh [--left | --unproved] [CRATE..]
#
# It builds the tests of the crates that are named, or of all: by `rt test`, which proves them first, or with `--unproved` by `rt try --test`, of which it
# keeps what the tests are compiled from, since that leaves no program. With `--left` it takes the programs that the last `rt ci` left here.
#
# A test has an allocation of 1,234,567 bytes where nothing is to be refused from there on, and another where refusals go on. The count is exact: a
# program takes memory by `malloc` and `realloc` alone (which is looked for), and these tests have one thread.
set -euo pipefail
cd "$(dirname "${BASH_SOURCE[0]}")/.."

# The crate, the test, the refusals that it meets at least.
tests='
eu_registry_tests store_memory::memory_store 620
eu_registry_tests memory::memory_core 430
eu_registry_tests eviction::memory_eviction 135
eu_value_tests memory::memory_outbox 4200
eu_value_tests value_memory::memory_values 145
eu_value_tests value_memory::memory_texts 82
eu_value_tests value_memory::memory_pages 23
eu_book_tests memory::memory_checkpoint 150
eu_book_tests memory::memory_book 620
eu_book_tests shared_memory::memory_shared 61
eu_book_tests shared_memory::memory_lock 61
eu_book_tests session_memory::memory_seat 93
eu_http_tests request_memory::memory_request 40
eu_http_tests request_memory::memory_faults 74
eu_http_tests request_memory::memory_routes 300
eu_http_tests memory::memory_json 470
eu_session_tests memory::memory_http 400
eu_session_tests memory::memory_requests 163
eu_workers_tests memory::memory_turn 145
eu_workers_tests memory::memory_seat_turn 360
eu_script_tests memory::memory_script 180
eu_script_tests memory::memory_bad_lines 1400
eu_script_tests memory::memory_run_audit 350
eu_script_tests memory::memory_journal 1800
eu_journal_tests memory::memory_journal_audit 640
eu_journal_tests memory::memory_bad_lines 1200
eu_audit_tests memory::a_refused_allocation_is_no_verdict 337
eu_audit_tests memory::memory_no_run 1450
eu_program_tests options::memory_options 160
'

work=$(mktemp -d)
trap 'rm -rf "$work"' EXIT
ulimit -c 0
kit=$(dirname "$(rt doc)")

cat >"$work/refuse.c" <<'C'
#include <errno.h>
#include <stdio.h>
#include <stdlib.h>
#include <sys/wait.h>
#include <unistd.h>

extern void *__libc_malloc(size_t);
extern void *__libc_realloc(void *, size_t);

static const size_t pause_or_go_on = 1234567;
static int pauses, is_child;
static long met;

static void tell(const char *word, long number) {
    char line[64];
    int length = snprintf(line, sizeof line, "%s %ld\n", word, number);
    if (write(9, line, length) != length) abort();
}

static int is_refused(size_t size) {
    if (size == pause_or_go_on) pauses = !pauses;
    if (size == pause_or_go_on || pauses || is_child) return 0;
    met++;
    pid_t child = fork();
    if (child < 0) abort();
    if (child == 0) {
        is_child = 1;
        alarm(60);
        errno = ENOMEM;
        return 1;
    }
    int status;
    if (waitpid(child, &status, 0) != child) abort();
    tell(status == 0 ? "good" : "fails", met);
    return 0;
}

void *malloc(size_t size) { return is_refused(size) ? NULL : __libc_malloc(size); }
void *realloc(void *old, size_t size) { return is_refused(size) ? NULL : __libc_realloc(old, size); }
C
cc -O2 -shared -fPIC -o "$work/refuse.so" "$work/refuse.c"

# Builds the tests of a crate by a try, while which what they are compiled from stands in a folder of its own; of several, the greatest is theirs.
build_unproved() {
    local folder=$work/$1
    mkdir "$folder"
    (cd "crates/$1" && TMPDIR=$folder exec rt try --test) >"$work/built" 2>&1 &
    local try=$!
    while kill -0 "$try" 2>/dev/null; do
        find "$folder" -name module.bc -size +50k -exec ln -f {} "$folder/kept.bc" ';' 2>/dev/null || true
        sleep 0.1
    done
    wait "$try" || return 1
    "$kit/toolchain/bin/clang" -O1 -c -o "$folder/kept.o" "$folder/kept.bc"
    "$kit/bin/rattle-link" --target x86_64-unknown-linux-gnu --toolchain "$kit/toolchain" -o "$folder/program" "$folder/kept.o" \
        "$kit/c/libos_c.a" "$kit/c/liblibc_c.a" >/dev/null
    program=$folder/program
}

build_proved() {
    (cd "crates/$1" && rt test) >"$work/built" 2>&1 || return 1
    program=crates/$1/out/$1_tests
}

take_left() {
    program=crates/$1/out/$1_tests
    [ -x "$program" ] || { echo "rt ci left no tests of $1" >"$work/built"; return 1; }
}

# Refuses each allocation of one test.
sweep() {
    local crate=$1 test=$2 least=$3 status=0
    LD_PRELOAD="$work/refuse.so" "$program" "tests::$test" >"$work/said" 2>&1 9>"$work/told" || status=$?
    local met
    met=$(wc -l <"$work/told")
    echo "$crate $test: $met refusals"
    if [ "$status" -ne 0 ]; then echo "$crate $test: fails (status $status) where none is refused"; fi
    sed -n "s/^fails \(.*\)/$crate $test: fails where allocation \1 is refused/p" "$work/told"
    if [ "$met" -lt "$least" ]; then echo "$crate $test: fewer than $least"; fi
    [ "$status" -eq 0 ] && ! grep -q '^fails' "$work/told" && [ "$met" -ge "$least" ]
}

build=build_proved
case ${1:-} in
    --unproved) build=build_unproved && shift ;;
    --left) build=take_left && shift ;;
esac
failed=0 built=
while read -r crate test least; do
    [ -n "$crate" ] || continue
    [ $# -eq 0 ] || [[ " $* " == *" $crate "* ]] || continue
    if [ "$built" != "$crate" ]; then
        "$build" "$crate" || { tail -20 "$work/built"; exit 1; }
        built=$crate
        if nm -D --undefined-only "$program" | grep -E ' (calloc|aligned_alloc|posix_memalign|memalign|valloc|mmap|brk|sbrk)(@|$)'; then
            echo "$crate: takes memory by more than malloc and realloc"
            exit 1
        fi
    fi
    sweep "$crate" "$test" "$least" || failed=1
done <<<"$tests"
exit "$failed"
