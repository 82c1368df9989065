# shellcheck shell=sh
# Read by shell scripts at the top of the repository: what they work with. HOW says what happens where it is not built:
#
#   built         nothing: one line says how to get it
#   unproved      it is compiled without a proof, for tests alone; the library is compiled so even where a proved one is built
#   proved        it is proved and built; nothing else will do
#
#   OCTET         the program `octet`; if it is not set, what `bin/octet --program` finds
#   OCTET_LIB     the folder of liboctet_c.a; if it is not set, what `bin/octet --library` finds
#   RATTLE_KIT    the kit; if it is not set, that of the `rt` on the path

if [ -z "${OCTET:-}" ]; then
    case $HOW in
        built) OCTET=$(bin/octet --program) || exit ;;
        unproved)
            # Of these sources there may be a proved one.
            OCTET=$(bin/octet --program 2>/dev/null) || { tools/build --unproved && OCTET=$(bin/octet --program); } || exit
            ;;
        proved)
            # The first call builds it, and says so on standard error.
            bin/octet tidy examples/one.octet >/dev/null || exit
            OCTET=$PWD/crates/octet/out/octet
            ;;
    esac
fi
if [ -z "${OCTET_LIB:-}" ]; then
    case $HOW in
        built) OCTET_LIB=$(bin/octet --library) || exit ;;
        unproved) OCTET_LIB=$(bindings/unproved) || exit ;;
        proved)
            (cd crates/octet_c && rt lib >&2) || exit
            OCTET_LIB=$PWD/crates/octet_c/out
            ;;
    esac
fi
if [ -z "${RATTLE_KIT:-}" ]; then
    RATTLE_KIT=$(dirname "$(dirname "$(readlink -f "$(command -v rt)")")")
fi
export OCTET OCTET_LIB RATTLE_KIT
