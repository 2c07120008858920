r"""What random projects are made of, as tables: a weight and the rest of the line. In a snippet @n is a number of its
own, @k a digit, @m the number of one of few macros, and @h the name of a header. A snippet is for inputs (`c`), for
headers (`h`) or for both (`any`)."""

SNIPPETS = r"""
8 any int v@n = @k;
5 any static inline int f@n(int a) { return a + @k; }
8 any #undef M@m\n#define M@m @k
7 any #ifdef M@m\nconst char *m@n = TEXT(M@m);\n#else\nint m@n;\n#endif
3 any #if defined M@m && M@m + 0 > 4\nint i@n = @k;\n#elif @k > 5\nint j@n;\n#endif
2 any struct s@n { char a; int b@m; long c[@k + 1]; };\nint z@n = sizeof(struct s@n);
5 any #include "@h"
5 any #include <@h>
3 any #undef N@m\n#define N@m "@h"\n#include N@m
1 any #undef N@m\n#define N@m <@h>\n#include N@m
1 any #ifdef N@m\n#include N@m\n#endif
1 any #import "@h"
3 h #include_next <@h>
1 any #include <stddef.h>
0.6 any #include <limits.h>
0.3 any #include <stdio.h>
1 any #line @k00 "gram@m.y"
0.6 any #line @k00
0.4 any # @k "@h"
3 any asm(".globl l@n\\nl@n: .long @k");
1.2 any asm(".pushsection .data\\n.incbin \\"data\\"\\n.popsection");
0.4 any asm(".inc" "bin \\"data\\"");
0.4 any asm(".INCBIN \\"data\\"");
0.4 any asm(".\\x69ncbin \\"data\\"");
0.4 any asm(".include \\"@h\\"");
0.4 any asm(".print \\"said @k\\"");
0.4 any asm(".warning \\"said @k\\"");
0.4 any const char *t@n = ".incbin \\"data\\"";
0.4 any asm(".macro m@n\\n.long @k\\n.endm\\nm@n");
0.6 c void g@n(void) { __asm__ volatile(".inc{bin|bin} \\"data\\"" :: "i"(@k)); }
0.6 c void g@n(void) { __asm__(".pushsection .data\\n.i%cncbin \\"data\\"\\n.popsection" :: "i"(@k)); }
0.8 any const char *t@n = __TIME__;
0.8 any const char *t@n = __DATE__;
0.8 any const char *t@n = __TIMESTAMP__;
1 any #undef M@m\n#define M@m __TIMESTAMP__
0.6 any #undef M@m\n#define M@m __TIME__
0.6 any const char *t@n = PASTE(__TI, ME__);
0.6 any const char *t@n = PASTE(__TIMES, TAMP__);
0.6 any const char *t@n = __TI\\\nME__;
0.6 any const char *t@n = __TIMESTAMP\\\n__;
1 any #ifdef T@m\nconst char *t@n = T@m;\n#endif
1 any #if __has_include("@h")\nint e@n = @k;\n#endif
1 any #if __has_include(<@h>)\nint e@n = @k;\n#else\nint o@n;\n#endif
0.6 any #undef N@m\n#define N@m "@h"\n#if __has_include(N@m)\nint e@n;\n#endif
0.6 any #if __has_\\\ninclude("@h")\nint e@n;\n#endif
0.6 h #if __has_include_next(<@h>)\nint e@n;\n#endif
2 any #if __has_include("@h")\n#line 1000\n__attribute__((used)) static int l@n(int *a, int i) { return a[i] / i; }\n#else\n#line 1000\n__attribute__((used)) static int l@n(int *a, int i) { return  a[i]  /  i; }\n#endif\n#line 2000
1 any #if __has_include(<@h>)\n#line 1000\n#warning said @k\n#else\n#line 1000\n#warning     said @k\n#endif\n#line 2000
1 h #if __has_include_next(<@h>)\n#line 1000\nstatic int l@n(void) { int unused; return 0; }\n#else\n#line 1000\nstatic int l@n(void) { int  unused; return  0; }\n#endif\n#line 2000
1.5 any #if defined E@m && (E@m)\nint e@n = @k;\n#endif
1.2 any #pragma GCC dependency "@h"
0.6 any #pragma GCC dep\\\nendency "@h"
0.6 any _Pragma("GCC dependency \\"@h\\"")
0.5 any #pragma GCC /* c */ dependency <@h> /* @k */
1.2 any #define A@n @k /* a dependency on @h */
0.4 any #define A@n @k /* a dependency\non @h */
1.5 h #pragma once
0.4 h _Pragma("once")
0.8 h #pragma GCC system_header
0.8 any _Pragma("GCC diagnostic ignored \\"-Wunused-variable\\"")
0.6 any #pragma GCC optimize "O@k"
0.6 any #pragma message "note @k"
0.8 any #warning said @k
0.6 any #pragma pack(2)
0.8 any #pragma pack(P@m)\nstruct { char a; int b@m; } p@n;\n#pragma pack()
0.4 any _Pragma("pack(P@m)") struct { char a; int b@m; } p@n;
0.4 any #pragma GCC diagnostic ignored_attributes "vendor::a@m"
0.6 any #if __has_c_attribute(vendor::a@m)\nint h@n = @k;\n#endif
0.4 any #ident "by @k"
1 any const char *n@n = __FILE__;
0.8 any const char *n@n = __BASE_FILE__;
0.6 any const char *n@n = __FILE_NAME__;
1.5 any int n@n = __LINE__;
0.8 any int n@n = __COUNTER__;
0.8 any int n@n = __INCLUDE_LEVEL__;
0.6 any #ifdef __OPTIMIZE__\nint n@n = __OPTIMIZE__;\n#endif
3 c int w@n(int a) {\n    switch (a) {\n    case 1: a++;\n    /* fall through */\n    case 2: return a;\n    }\n    return 0;\n}
2.5 c int w@n(void) { int unused = @k; return 0; }
2 c int w@n(unsigned a, int b) { return a < b; }
2 c int w@n(int a) {\n    if (a)\n        a++;\n        a--;\n    return a;\n}
1.5 c static int w@n(void) { return @k; }
1.5 c int w@n() { return v0; }
2.5 c int u@n(int *a, int i) { return a[i] / i; }
2.5 c long u@n(long a) { long b = a << @k; return b + a; }
1 c int u@n(char *a) { return __builtin_LINE() + a[@k]; }
1.5 any /* remark @k */
"""

# `alone` and `words` are options as they stand, one of a line or the whole line; the others have one of the values:
# joined to the option, in a word of its own, or either.
OPTIONS = r"""
10 joined -O 0 1 2 3 s g fast
9 alone -g -g -g -g3 -g1 -ggdb -gdwarf-4 -g0 -gno-column-info
5 alone -fsanitize=undefined -fsanitize=address
9 alone -Wall -Wextra -Wall -Wextra -w -pedantic -Wno-all
1.6 alone -Wmissing-include-dirs -Wno-missing-include-dirs
1.6 alone -nostdinc -isysroota -isysroot../other -Wa,--noexecstack -Wa,--fatal-warnings -Wa,--no-warn -Wp,-D_FORTIFY_SOURCE=2
2 alone -Wunused-variable -Wimplicit-fallthrough -Wimplicit-fallthrough=2
2 alone -Wsign-compare -Wmisleading-indentation -Wsystem-headers
1.6 alone -Werror -Werror=unused-variable -Wfatal-errors -Wno-cpp -pedantic-errors
1.6 alone -Wcpp -Wundef -Wstrict-prototypes -Wdate-time -Wunused-macros
2.5 alone -fno-common -fPIC -fwrapv -ffunction-sections
2.5 alone -fdata-sections -fno-asynchronous-unwind-tables -fstack-protector-strong -fvisibility=hidden
1.6 alone -ffreestanding -funsigned-char -fshort-enums -fno-builtin
1.6 alone -fcommon -finstrument-functions -fno-diagnostics-show-caret -fno-diagnostics-show-option
3 alone -m32 -msse4.2 -mavx2 -march=x86-64 -mtune=generic -mno-red-zone -m64 -masm=intel -masm=att
3 alone -std=c99 -std=gnu11 -std=c17 -ansi -std=c2x --std=c11
2 alone -fdiagnostics-color=always -fdiagnostics-color -fmessage-length=40 -fdiagnostics-urls=always
2 alone -fdiagnostics-show-location=once -fdiagnostics-generate-patch -fmax-errors=1 -ftabstop=4
6 joined -D M0=7 M1 M2=3 M3=__LINE__ E1=0 M4=__FILE__ N2="g.h"
4 joined -D P0=1 P0=2 P1=4 M5=3 NONE NONE=1 NONE="@k" NONE(a)=a
3 separate -D M0=7 M1 M2=3 NONE=2
2 joined -U M0 M1 M2
0.7 joined -D @words @defs
0.7 joined -I @words
3 joined -D T0=__TIME__ T1=__DATE__ T1=__TIMESTAMP__ T0=PASTE(__TI,ME__) T2=__TIMESTAMP__ M3=__TIME__
3 joined -D E0=__has_include("h.h") E1=__has_include("g.h") E2=__has_include(<c/d.h>) E0=__has_include_next(<k.h>)
12 either -I @d
4 either -iquote @d
4 either -isystem @d
3 either -idirafter @d
5 either -include @f @f @f @f h.h missing.h
3 either -imacros @f @f @f h.h
4 alone -MD -MMD
4 words -MD -MP
3 words -MMD -MF out/x.d
2 words -MD -MT x.o -MQ a$b -MF out/y.d
2 words -MD -MP -MF x.d -MT out/x.o
1.5 alone -Wp,-MD,out/x.d -Wp,-MMD,out/.x.d -Wp,-DM1=2 -Wp,-MD -Wp,-DT0=__TIME__ -Wp,-Ia -Wp,-w
1.5 words -Wp,-MD,out/x.d -Wp,-MT,out/x.o
0.7 alone -Wp,-MT,t -Wp,-MT,t,u
2 words -x c
0.7 alone -xc -xc++ -xnone -x
1 alone -M -MM -MG -MP -MF -MT
1 either -MF out/z.d missing/x.d -o a linked
3 alone -pipe
1.5 alone -P
1 alone -v -### -H -fverbose-asm -dM -dD -C -CC
0.5 alone -remap -save-temps -save-temps=obj -fdump-tree-original
0.5 alone -fstack-usage -fdirectives-only -fpreprocessed -no-integrated-cpp
1 words -D @defs
1 words -include @defs
1 alone @words @missing -I@words
0.7 alone -print-prog-name=cc1 -print-search-dirs --version -dumpmachine -print-file-name=x --help -dumpversion
0.35 alone -unknown -funknown -Wunknown -Wno-unknown --unknown
0.35 alone -munknown -fno-unknown -std=unknown -Ounknown -gunknown --param=unknown=1
0.7 alone -s -no-pie -shared -static -rdynamic -lm -L. -Wl,-x -nostdlib -pthread -fuse-ld=bfd
0.7 alone -Wa,-L -Wa,--MD,out/as.d -Wa,-Ia -Wa,-g -Xassembler
0.7 words -Xpreprocessor -DM1=1
0.5 words -Xassembler -L
0.7 alone --sysroot=a -iprefixa/ -iwithprefixc -imultilibx -I-
1.6 alone -fdebug-prefix-map=@root=x -ffile-prefix-map=@root=x
0.35 alone -fmacro-prefix-map=@root=x -fworking-directory -fno-working-directory
0.35 alone --include=h.h --include-directory=a --define-macro=M1 --undefine-macro=M1 --debug
0.35 alone --optimize=2 --output=out/x.o --all-warnings --pedantic --warn-all
0.25 alone -specs=data -Ba -B -wrapper -fplugin=x
0.25 alone -frecord-gcc-switches -fauto-profile -fopt-info -fdiagnostics-format=json -aux-info
0.35 alone -trigraphs -undef -fextended-identifiers -finput-charset=latin1
0.35 alone -fexec-charset=latin1 -ftrack-macro-expansion=0 -flarge-source-files -fpch-deps -fdollars-in-identifiers
0.7 alone --param=max-inline-insns-auto=3 -fno-inline -falign-functions=32 -fsyntax-only -E -S -c -x -march=native
"""

# A variable and its values; '' is the empty one.
VARIABLES = r"""
4 CPATH a a/ b:a :b a: '' missing:b ./a/c missing data
4 CCK_BASEDIR @root @root/work @root/other '' work
2 C_INCLUDE_PATH a b/ :a '' missing
1 CPLUS_INCLUDE_PATH a
2 COMPILER_PATH '' a @root/work/a
2 DEPENDENCIES_OUTPUT '' out/dep out/dep|x.o
1 SUNPRO_DEPENDENCIES '' out/dep
2 SOURCE_DATE_EPOCH 0 1000000000 '' x
2 LANG C C.UTF-8 ''
3 LC_ALL C C.UTF-8 '' de_DE.UTF-8
2 LC_CTYPE C C.UTF-8
1 LC_MESSAGES C C.UTF-8
1 LANGUAGE de C
2 GCC_COLORS '' error=01;32 warning=01;34:locus=01
1 GCC_URLS no st bel
1 TERM_URLS no st
1 GCC_EXTRA_DIAGNOSTIC_OUTPUT fixits-v1 fixits-v2 ''
1 TERM dumb xterm ''
2 TMPDIR @root @root/missing ''
3 PWD @root/link @root/missing '' @root/other
1 GCC_EXEC_PREFIX '' x/
1 GCC_COMPARE_DEBUG '' 1
1 TZ UTC0 XYZ-5 ''
1 COLUMNS 40
1 LIBRARY_PATH a
1 COLLECT_GCC_OPTIONS -O2
1 COLLECT_AS_OPTIONS -g
1 GCC_NOAPPORT 1
1 POSIXLY_CORRECT 1 ''
1 BINUTILS_ROOT @root/work ''
1 GCC_ROOT @root/work
1 LOCPATH @root /usr/lib/locale
1 GCONV_PATH @root
1 LD_LIBRARY_PATH a @root/work
1 CFLAGS -O2
"""
