# Sourced by the tools that run a program of their own name on the program.rec, start.rec and picks.rec of a folder. `tool` is the name, `root`
# the folder of the repository, `folder` the folder. The program is built where it is not there, or no longer what the sources say; then the
# tool stands in the folder, and `program` is the command that runs it. Where that fails, the tool ends with status 2.
[ -d "$folder" ] || { echo "$tool: there is no folder $folder" >&2; exit 2; }
case $folder in /*) ;; *) folder=$PWD/$folder ;; esac
. "$root/tools/building.sh"
prove_program "$tool"

program=("$root/crates/$tool/out/$tool")
[ -x "${program[0]}" ] || { echo "$tool: ${program[0]} is gone: remove $root/crates/$tool/out, then try again" >&2; exit 2; }
cd "$folder" || exit 2
