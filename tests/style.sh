#!/usr/bin/env bash
# The form of the scripts and of the Python: that bash and Python 3.9 can read them, and what shellcheck, mypy and ruff say,
# each where it is installed. .shellcheckrc and pyproject.toml have their settings.
# shellcheck source=tests/lib.sh
. "$(dirname -- "$0")/lib.sh"
cd -- "$root" || exit 1

# is_shell FILE: whether its first line calls a shell.
is_shell() {
    local first
    IFS= read -r first <"$1" 2>"$scratch/fault" && [[ $first =~ ^'#!'.*/(env\ )?(ba)?sh$ ]]
}
shells=(tests/lib.sh)
pythons=(tools/ssign-keys tools/archive tools/make-pages)
while IFS= read -r -d '' file; do
    # the first lines of these are a shell's, and the rest is Python
    [[ " ${pythons[*]} " == *" ${file#./} "* ]] || { is_shell "$file" && shells+=("$file"); }
done < <(find . \( -path ./.git -o -path ./crates -o -path ./build -o -path ./release/'new.*' \) -prune -o -type f ! -name '*.frames' -print0 |
    sort -z)
while IFS= read -r -d '' file; do
    pythons+=("$file")
done < <(find tools tests bench examples -name '*.py' -print0 | sort -z)
echo "$name: ${#shells[@]} scripts and ${#pythons[@]} files of Python"
holds 'the scripts were found' test "${#shells[@]}" -gt 80
holds 'the Python was found' test "${#pythons[@]}" -gt 150

for file in "${shells[@]}"; do
    if is_shell "$file" && [[ $(head -n 1 -- "$file") == *bash ]]; then
        holds "bash reads $file" bash -n -- "$file"
    fi
done
cat >"$scratch/reads.py" <<'P'
"""Names each file that isn't Python 3.9."""
import ast, sys
for name in sys.argv[1:]:
    with open(name, encoding="utf-8") as file:
        try:
            ast.parse(file.read(), feature_version=(3, 9))
        except SyntaxError as fault:
            print(f"{name}: line {fault.lineno}: {fault.msg}")
P
said=$(python3 -B "$scratch/reads.py" "${pythons[@]}" 2>&1)
tell 'Python 3.9 reads each file of Python' "$said"

# passes TOOL WORD..: one check, that the tool has nothing to say; it is left out where it is missing.
passes() {
    if command -v "$1" >"$scratch/out"; then
        said=$("$@" 2>&1) && said=''
        tell "$1" "$said"
    else
        skip "$1, which is missing"
    fi
}
passes shellcheck -f gcc -- "${shells[@]}"
passes mypy --no-error-summary --cache-dir "$scratch/mypy"
passes ruff check --quiet --no-cache "${pythons[@]}"
finish
