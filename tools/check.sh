#!/usr/bin/env bash
# All checks of the pages and of the style. Each says what it found, and the last line counts those that failed.
# Usage: tools/check.sh   (MIXED: the program that the last two run, or crates/mixed/out/mixed, built as bench/program.sh says)
set -u
cd "$(dirname "$0")/.." || exit 1
checks=(
    "house_style.py"
    "crate_groups.py --check"
    "shared_names.py"
    "clauses.py --check"
    "example_inputs.py --check"
    "draw_pictures.py --check"
    "picture_inputs.py --check"
    "refusal_rows.py --check"
    "page_links.py"
    "reading_list.py --check"
    "page_outputs.py"
    "certificate_answers.py"
)
failed=0
for check in "${checks[@]}"; do
    # shellcheck disable=SC2086
    python3 tools/$check || { echo "tools/$check: failed"; failed=$((failed + 1)); }
done
echo "${#checks[@]} checks, $failed failed"
test "$failed" = 0
