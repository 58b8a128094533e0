"""The rows: a source, where `§` stands before the token at which the refusal stands, the refusal, and a note."""
import json
import os

P = 'export void go() { '


def place(src):
    i = src.index('§')
    return src[:i].count('\n') + 1, i - (src.rfind('\n', 0, i) + 1) + 1


def row(src, want=None, note=None):
    if want is None:
        assert '§' not in src
        return (src, None, note)
    if ' ' in want:  # a place given in numbers
        return (src, want, note)
    line, col = place(src)
    return (src.replace('§', ''), f'{want} {line} {col}', note)


def body(s, want=None, note=None):
    """a row of one entry function"""
    return row(P + s + ' }', want, note)


WORKED = [
    row(P + 'uniform int u = programIndex; }', 'S7 1 36'),
    row('void f(int8 a, int16 b) { }\nvoid f(int16 a, int8 b) { }\n' + P + 'f(1, 1); }', 'S10 3 20', 'equal sums: a tie'),
    row('void f(int64 a, int8 b) { }\nvoid f(int8 a, int b) { }\n' + P + 'f(1, 1); }', 'S10 3 20',
        'sums 9 and 7, and the first argument costs 4 and 5: this row refuses the wrong definition by which the least sum wins whatever its single costs'),
    row(P + 'foreach (i = 0 ... 4) return; }', 'S11 1 42'),
    row(P + 'x = 1; }', 'S5 1 20'),
    row(P + 'int x; int x; }', 'S6 1 31'),
    row(P + 'const int x = 1; x = 2; }', 'S8 1 37'),
    row(P + 'int x = min(1); }', 'S9 1 28'),
    row('int f() { return 1; }\n' + P + 'int x = f() + 1; }', 'S12 2 28'),
    row(P + 'switch (1) { case 1: case 1: ; } }', 'S6 1 41'),
    row(P + 'int8 v = 1; switch (v) { case 300: ; } }', 'S8 1 45'),
    row('void f() { }', None, 'no exported function is no fault of names or types'),
]

NAMES = [
    body('int x = §y;', 'S5'),
    body('int x = §x;', 'S5', "a local's scope begins at the end of its declaration"),
    body('int x = x0[§i];', 'S5', 'an expression with a fault inside gives no second one: not at x0'),
    body('§q[r] = 1;', 'S5', 'a target is no expression, so that its name counts'),
    body('int x = q[§r];', 'S5'),
    body('int x = f(§y);', 'S5', 'not at f'),
    body('int x = 1 + q(§y);', 'S5'),
    row('int f(int a) { return a; }\n' + P + 'int x = 1 + f(§y); }', 'S5', 'not S12 at f'),
    body('int x = §f(1);', 'S5'),
    body('§f(1);', 'S5'),
    body('f(&§q[r]);', 'S5', '`&q[r]` is no expression, so that its name counts'),
    body('{ int x; } §x = 1;', 'S5'),
    body('if (true) int x; §x = 1;', 'S5', 'a declaration that is a body is a block of its own'),
    body('for (int i = 0; i < 2; i++) ; §i = 1;', 'S5'),
    body('foreach (i = 0 ... §i) ;', 'S5', 'an index variable is in scope in the body alone'),
    body('foreach_unique (v in §v) ;', 'S5'),
    row(P + 'int x = t; f(); }\nuniform int t = 3;\nvoid f() { }', None, 'functions and file-scope variables are visible in the whole source'),
    body('int x; { int x; x = 1; } x = 2;'),
    body('int x; int §x;', 'S6'),
    row('void f(int a) { int §a; }', 'S6', 'parameters and the outermost block are one scope'),
    row('void f(int a) { { int a; } }'),
    row('void f(int a, int §a) { }', 'S6'),
    body('for (int i = 0; i < 2; i++) { int i; }'),
    body('foreach (i = 0 ... 2, §i = 0 ... 2) ;', 'S6'),
    body('foreach (i = 0 ... 2) { int i; }'),
    body('int §programIndex;', 'S6'),
    body('foreach_active (§programCount) ;', 'S6'),
    body('foreach_unique (§programIndex in 2) ;', 'S6'),
    row('void f(int §programCount) { }', 'S6'),
    row('uniform int §programIndex;', 'S6'),
    row('uniform int a;\nuniform int8 §a[3];', 'S6'),
    row('void §min(int a) { }', 'S6'),
    row('void §assert(bool a) { }', 'S6'),
    row('void §packmask() { }', 'S6'),
    row('void f(int a) { }\nint §f(int b) { return b; }', 'S6', 'the result is no difference'),
    row('void f(int a) { }\nvoid f(uniform int a) { }'),
    row('void f(uniform int a[]) { }\nvoid §f(const uniform int a[]) { }', 'S6', '`const` is no difference'),
    row('void f(uniform int a[]) { }\nvoid f(uniform int a) { }'),
    row('void programIndex() { }\nuniform int f;\nvoid f() { f = 1; f(); }', None, 'variables and functions are separate'),
]

CONTROL = [
    body('§break;', 'S11'),
    body('§continue;', 'S11'),
    body('if (true) §break;', 'S11'),
    body('while (true) break;'),
    body('while (true) { if (true) continue; }'),
    body('do break; while (true);'),
    body('for (;;) { break; }'),
    body('foreach (i = 0 ... 4) continue;'),
    body('foreach (i = 0 ... 4) §break;', 'S11'),
    body('foreach (i = 0 ... 4) while (true) break;'),
    body('foreach (i = 0 ... 4) while (true) §return;', 'S11'),
    body('while (true) foreach (i = 0 ... 4) §break;', 'S11', 'the loop is outside the foreach'),
    body('foreach_active (i) §return;', 'S11'),
    body('foreach_unique (v in programIndex) §break;', 'S11'),
    body('foreach (i = 0 ... 4) §foreach (j = 0 ... 4) ;', 'S11'),
    body('foreach_tiled (i = 0 ... 4) §foreach (j = 0 ... 4) ;', 'S11'),
    body('foreach (i = 0 ... 4) foreach_active (j) §foreach (k = 0 ... 4) ;', 'S11'),
    body('foreach_active (j) foreach (k = 0 ... 4) ;'),
    body('foreach (i = 0 ... 4) foreach_active (j) continue;'),
    body('foreach_active (i) foreach_unique (v in programIndex) ;'),
    body('switch (1) { case 1: break; }'),
    body('switch (1) { case 1: §continue; }', 'S11'),
    body('while (true) switch (1) { case 1: continue; }'),
    body('foreach (i = 0 ... 4) switch (i) { case 1: break; default: continue; }'),
    body('switch (1) { default: ; §default: ; }', 'S6'),
    body('switch (1) { case 0: ; §case -0: ; }', 'S6'),
    body('switch (1) { case 1: ; case -1: ; default: ; }'),
    body('while (true) { §foreach_one(); }', 'S5'),
]

NESTED = [
    row('int f() { return 1; }\n' + P + 'int x = f(); x = f(); x = ((f())); f(); }'),
    row('int f() { return 1; }\nint g() { return f(); }'),
    row('int f() { return 1; }\n' + P + 'if (§f() == 1) ; }', 'S12'),
    row('int f(int a) { return a; }\n' + P + 'int x = f(§f(1)); }', 'S12', 'at the innermost'),
    row('int f(int a) { return a; }\n' + P + 'f(f(§f(1))); }', 'S12'),
    row('uniform int q[3];\nint f(int a) { return a; }\n' + P + 'q[0] = §f(1); }', 'S12', 'an element is no variable'),
    row('uniform int q[3];\nint f(int a) { return a; }\n' + P + 'q[§f(1)] = 1; }', 'S12'),
    row('int f(int a) { return a; }\n' + P + 'for (; §f(1); ) ; }', 'S12'),
    row('int f(int a) { return a; }\n' + P + 'int x; x += §f(1); }', 'S12'),
    row('int f(int a) { return a; }\n' + P + 'foreach (i = 0 ... §f(1)) ; }', 'S12'),
    row('int f(int a) { return a; }\n' + P + 'switch (§f(1)) { } }', 'S12'),
    row('uniform int q[3];\n' + P + 'q[0] = §packed_store_active(q, 1); }', 'S12'),
    row('uniform int q[3];\n' + P + 'uniform int n = packed_store_active(q, 1); n = (packed_store_active(&q[1], 2)); packed_store_active(q, 3); }'),
    row('uniform int q[3];\n' + P + 'int n = 1 + §packed_store_active(q, 1); }', 'S12'),
    body('bool b = §assert(true);', 'S12'),
    body('bool b; b = (§assert(true));', 'S12'),
    row('bool f() { return §assert(true); }', 'S12'),
    body('assert(true);'),
    body('§min(1, 2);', 'S12'),
    body('§lanemask();', 'S12'),
    body('int x = min(1, §assert(true));', 'S12'),
]

RATES = [
    body('uniform int u = 1; u = §programIndex;', 'S7'),
    body('uniform int u = 1; u += §1 + programIndex;', 'S7'),
    body('uniform int u = §(programIndex);', 'S7', 'at the first token of the expression'),
    body('uniform int u = §true ? programIndex : 1;', 'S7'),
    body('uniform int u = reduce_add(programIndex); int v = u;'),
    row('uniform int a[3];\n' + P + 'a[0] = §programIndex; }', 'S7', 'an element at a uniform index'),
    row('uniform int a[3];\n' + P + 'a[programIndex] = programIndex; int x = a[programIndex]; }'),
    row('uniform int a[3];\n' + P + 'uniform int x = §a[programIndex]; }', 'S7'),
    row('uniform int f() { return §programIndex; }', 'S7'),
    row('int f() { return programIndex; }'),
    row('int f() { return 1; }\n' + P + 'uniform int x = §f(); }', 'S7'),
    row('int f() { return 1; }\n' + P + 'uniform int x = §(f()); }', 'S7'),
    row('void f(uniform int a) { }\n' + P + '§f(programIndex); }', 'S9', 'varying to uniform has no cost'),
    body('int x = §(uniform int) programIndex;', 'S7', "at the cast's parenthesis"),
    body('int x = (int8) programIndex; int y = (varying int8) 3;'),
    body('uniform int y = §(varying int8) 3;', 'S7'),
    body('foreach (i = §programIndex ... 4) ;', 'S7'),
    body('foreach (i = 0 ... §(programIndex)) ;', 'S7'),
    row('int §a[3];', 'S7', 'arrays are uniform'),
    row('void f(int §a[]) { }', 'S7'),
    row('export void f(int §a) { }', 'S7'),
    row('export void f(uniform int a, uniform int b[]) { }'),
    row('export int §f() { return 1; }', 'S7'),
    row('export uniform int f() { return 1; }'),
    row('export void f(void §x) { }', 'S7', 'also S8 there'),
    row('void f(uniform int a[]) { }\nuniform int m[3];\n' + P + 'f(&m[§programIndex]); }', 'S7'),
    row('void f(uniform int a[]) { }\nuniform int m[3];\n' + P + 'f(&m[§programIndex > 1]); }', 'S7', 'S7 and S8 at one place'),
    body('foreach_active (i) { uniform int64 x = i; }'),
    body('foreach_unique (v in programIndex) { uniform int x = v; }'),
    body('foreach (i = 0 ... 4) { uniform int x = §i; }', 'S7'),
]

TYPES = [
    body('§programIndex = 1;', 'S8'),
    body('§programCount += 1;', 'S8'),
    body('foreach (i = 0 ... 4) §i = 1;', 'S8'),
    body('foreach_active (i) §i++;', 'S8'),
    body('foreach_unique (v in programIndex) --§v;', 'S8'),
    row('const uniform int a[3];\n' + P + '§a[0] = 1; }', 'S8', 'an element of a constant array'),
    row('uniform int a[3];\n' + P + 'int x = §a; }', 'S8', 'an array used as a scalar'),
    row('uniform int a[3];\n' + P + 'int x = §(a) + 1; }', 'S8'),
    row('uniform int a[3];\n' + P + '§a = 1; }', 'S8'),
    row('uniform int a;\n' + P + '§a[0] = 1; }', 'S8'),
    row('uniform int a;\n' + P + 'int x = §a[0]; }', 'S8'),
    row('uniform int a[3];\n' + P + 'int x = a[§true]; }', 'S8', 'a bool index'),
    row('uniform int a[3];\n' + P + 'a[§1 == 1] = 1; }', 'S8'),
    row('void f(uniform int a[]) { }\nuniform int m[3];\n' + P + 'f(&m[§true]); }', 'S8'),
    row('void f(uniform int a[]) { }\nuniform int m;\n' + P + 'f(&§m[0]); }', 'S8'),
    row('void f() { return §1; }', 'S8'),
    row('void f() { return §(1); }', 'S8'),
    row('void f() { return §min(1); }', 'S9', 'no second fault at the same expression'),
    row('int f() { §return; }', 'S8'),
    row('void g() { }\nvoid f() { return §g(); }', 'S8'),
    row('void g() { }\n' + P + 'int x = §g(); }', 'S8'),
    row('void g() { }\n' + P + 'int x; x = §(g()); }', 'S8'),
    body('void §x;', 'S8'),
    body('void §x; int y = x;', 'S8'),
    row(P + 'int y = §x; }\nvoid x;', 'S8', 'used before its declaration in the source: the first place wins'),
    row('void §x;', 'S8'),
    row('uniform void §a[3];', 'S8'),
    row('void f(void §x) { }', 'S8'),
    body('int x = §(void) 1;', 'S8'),
    body('int x = §(uniform void) programIndex;', 'S7', 'S7 and S8 at one place'),
    body('int x = (void) §min(1);', 'S9', 'an expression with a fault inside gives no second one'),
    body('switch (§true) { }', 'S8'),
    body('switch (§(programIndex == 1)) { }', 'S8'),
    body('uint8 v; switch (v) { case 255: ; §case 256: ; }', 'S8'),
    body('uint8 v; switch (v) { §case -1: ; }', 'S8'),
    body('uint8 v; switch (v) { case -0: ; }'),
    body('int8 v; switch (v) { case -128: ; case 127: ; §case -129: ; }', 'S8'),
    body('uint64 v; switch (v) { case 18446744073709551615: ; }'),
    body('int64 v; switch (v) { §case 9223372036854775808: ; }', 'S8'),
]

OVERLOADS = [
    row('void f(int a) { }\n' + P + '§f(); }', 'S9'),
    row('void f(int a) { }\n' + P + '§f(1, 2); }', 'S9'),
    row('void f(int a) { }\nvoid f(int8 a) { }\n' + P + 'f(1); }', None, 'costs 2 and 5'),
    row('void f(int64 a) { }\nvoid f(int8 a) { }\n' + P + 'f(1); }', None, 'costs 4 and 5: widening is less than another conversion'),
    row('void f(uint a) { }\nvoid f(uint64 a) { }\n' + P + '§f(1); }', 'S10', 'costs 5 and 5: widening keeps the sign'),
    row('void f(int a) { }\nvoid f(uniform int8 a) { }\n' + P + 'f(1); }', None, 'costs 2 and 3'),
    row('void f(int a) { }\nvoid f(uniform int64 a) { }\n' + P + 'f(1); }', None, 'costs 2 and 1'),
    row('void f(int64 a) { }\nvoid f(uniform uint8 a) { }\n' + P + 'f(1); }', None, 'costs 4 and 3'),
    row('void f(int a) { }\nvoid f(uint a) { }\n' + P + '§f(true); }', 'S10', 'costs 5 and 5: bool has no sign'),
    row('void f(int a, int b) { }\nvoid f(int64 a, int64 b) { }\n' + P + 'f(1, 1); }'),
    row('void f(int a, int64 b) { }\nvoid f(int64 a, int b) { }\n' + P + '§f(1, 1); }', 'S10'),
    row('void f(uniform int a[]) { }\nvoid f(uniform int8 a[]) { }\nuniform int8 m[3];\n' + P + 'f(m); f((m)); f(&m[1]); }'),
    row('void f(uniform int a[]) { }\nuniform int8 m[3];\n' + P + '§f(m); }', 'S9', 'the same element type'),
    row('void f(uniform int a[]) { }\nconst uniform int m[3];\n' + P + '§f(m); }', 'S9', 'a constant array goes only to a constant parameter'),
    row('void f(const uniform int a[]) { }\nconst uniform int m[3];\n' + P + 'f(m); }'),
    row('void f(const uniform int a[]) { }\nuniform int m[3];\n' + P + 'f(m); }'),
    row('void f(uniform int a[]) { }\n' + P + '§f(1); }', 'S9'),
    row('void f(uniform int a) { }\nuniform int m[3];\n' + P + '§f(m); }', 'S9', 'an array where a scalar is asked is no S8'),
    row('void f(uniform int a[]) { }\nuniform int m[3];\n' + P + '§f(&m); }', 'S9'),
    row('void f(int a) { }\nint x;\n' + P + '§f(&x); }', 'S9'),
    row('void f(int a) { }\n' + P + '§f(&programIndex); }', 'S9'),
    row('void f(int a) { }\nvoid f(int a, int b) { }\n' + P + 'f(1); f(1, 2); }'),
    row('void f(int a) { }\n' + P + 'f(§abs()); }', 'S9', 'not at f'),
]

LIBRARY = [
    body('bool b = any(1) && all(programIndex) && none(true);'),
    body('uniform int x = §min(programIndex, 1);', 'S7'),
    body('uniform int64 x = reduce_add(programIndex); uniform int8 y = reduce_min((int8) programIndex);'),
    body('uniform int x = §broadcast(programIndex, 1);', 'S7', 'varying, though each lane has one value'),
    body('uniform int x = extract(programIndex, 1);'),
    body('int x = broadcast(1, §programIndex);', 'S7'),
    body('int x = extract(1, §programIndex);', 'S7'),
    body('int x = insert(1, §programIndex, programIndex);', 'S7'),
    body('int x = insert(1, 1, §programIndex);', 'S7'),
    body('int x = rotate(1, §programIndex);', 'S7'),
    body('int x = shift(1, §programIndex);', 'S7'),
    body('int x = shuffle(1, programIndex); x = shuffle(1, 2, programIndex);'),
    body('int x = §shuffle(1);', 'S9'),
    body('int x = §lanemask(1);', 'S9'),
    body('uniform uint64 x = lanemask(); x = packmask(programIndex);'),
    body('uniform int x = popcnt(programIndex > 1); x = popcnt(3); x = §popcnt(programIndex);', 'S7'),
    row('uniform int a[3];\n' + P + 'int x = §abs(a); }', 'S9', 'an array can not convert'),
    row('uniform int a[3];\n' + P + 'int x = §broadcast(a, programIndex); }', 'S9', 'before S7 at the argument'),
    row('int x;\n' + P + 'int y = §abs(&x); }', 'S9'),
    body('int x = select(true, 1, programIndex); x = clamp(x, 0, 2); x = max(x, 1); x = exclusive_scan_add(x);'),
    body('§assert();', 'S9'),
    row('uniform int a[3];\n' + P + '§assert(a); }', 'S9'),
    body('assert(§min(1));', 'S9'),
    row('uniform int a[3];\n' + P + 'int x; uniform int n = packed_load_active(a, &x); n = packed_load_active(&a[1], &x); }'),
    row('uniform int a[3];\n' + P + 'int8 x; §packed_load_active(a, &x); }', 'S9', 'x of another type'),
    row('uniform int a[3];\n' + P + 'uniform int x; §packed_load_active(a, &x); }', 'S9', 'x of another rate'),
    row('uniform int a[3];\n' + P + 'const int x = 1; packed_load_active(a, &§x); }', 'S8', 'a constant x'),
    row('uniform int a[3];\n' + P + 'packed_load_active(a, &§programIndex); }', 'S8'),
    row('uniform int8 a[3];\n' + P + '§packed_load_active(a, &programIndex); }', 'S9'),
    row('uniform int a[3];\n' + P + '§packed_load_active(a, &programCount); }', 'S9'),
    row('uniform int a[3];\n' + P + 'int x; §packed_load_active(a, x); }', 'S9'),
    row('uniform int a[3];\n' + P + '§packed_store_active(a, a); }', 'S9'),
    row('const uniform int a[3];\n' + P + 'packed_store_active(§a, 1); }', 'S8'),
    row('const uniform int a[3];\n' + P + 'packed_store_active((§a), 1); }', 'S8'),
    row('const uniform int a[3];\n' + P + 'packed_store_active(&§a[1], 1); }', 'S8'),
    row('const uniform int a[3];\n' + P + 'int x; packed_load_active(a, &x); }'),
    row('uniform int a[3];\n' + P + '§packed_store_active(a); }', 'S9'),
    body('§packed_store_active(1, 1);', 'S9'),
    row('uniform int a[3];\n' + P + 'uniform bool b = packed_store_active(a, true); }'),
    row('uniform int a[3];\nvoid f() { return §packed_store_active(a, true); }', 'S8'),
]

ORDER = [
    body('uniform int u = programIndex; §x = 1;', 'S5', 'all faults of names come before those of types'),
    row('int §a[3];\nvoid f() { return 1; }', 'S7', 'the first place'),
    body('int x = §a + b;', 'S5'),
    body('int x; int §x = y;', 'S6', 'the name is before the value'),
    row('uniform int a[3];\n' + P + 'int x = §a + a[true]; }', 'S8'),
    row('uniform int a;\n' + P + '§a[min(1)] = min(2); }', 'S8', 'a target is no expression'),
    row('void f(uniform int a[]) { }\nuniform int m;\n' + P + 'f(&§m[min(1)]); }', 'S8', '`&m[e]` is no expression'),
    body('foreach_unique (v in §min(1)) { uniform int x = programIndex; }', 'S9'),
    body('switch (§min(1)) { case 1: assert(); }', 'S9'),
]

TABLES = [
    ('WorkedRows', 'The worked refusals of names and types.', WORKED),
    ('NameRows', 'Rows of unknown names (S5) and of names declared twice (S6).', NAMES),
    ('ControlRows', 'Rows of `break`, `continue`, `return` and foreach forms that may not stand where they stand (S11), and of labels (S6).', CONTROL),
    ('NestedRows', 'Rows of calls that may not stand where they stand (S12).', NESTED),
    ('RateRows', 'Rows of varying values where uniform ones are asked (S7).', RATES),
    ('TypeRows', 'Rows of values and names of a wrong kind (S8).', TYPES),
    ('OverloadRows', 'Rows of calls of user functions (S9, S10).', OVERLOADS),
    ('LibraryRows', 'Rows of library calls.', LIBRARY),
    ('OrderRows', 'Rows of several faults, of which the least is named.', ORDER),
]

# an expression with its type and rate
TYPED = [
    ('1', 'Int32 Uniform'), ('2147483647', 'Int32 Uniform'), ('2147483648', 'Int64 Uniform'), ('9223372036854775808', 'Uint64 Uniform'),
    ('1u', 'Uint32 Uniform'), ('4294967296u', 'Uint64 Uniform'), ('1l', 'Int64 Uniform'), ('9223372036854775808L', 'Uint64 Uniform'), ('1ul', 'Uint64 Uniform'),
    ('0x80000000', 'Int64 Uniform'), ('true', 'Bool Uniform'), ('programIndex', 'Int32 Varying'), ('programCount', 'Int32 Uniform'),
    ('-2147483648', 'Int64 Uniform'), ('true & false', 'Bool Uniform'), ('true ^ programIndex > 1', 'Bool Varying'), ('true + true', 'Int32 Uniform'),
    ('true - programIndex', 'Int32 Varying'), ('true == false', 'Bool Uniform'), ('true | 1', 'Int32 Uniform'), ('true ? false : true', 'Bool Uniform'),
    ('programIndex ? 1 : 2', 'Int32 Varying'), ('true ? (int8) 1 : true', 'Int8 Uniform'), ('-true', 'Int32 Uniform'), ('+true', 'Int32 Uniform'), ('~true', 'Int32 Uniform'),
    ('-(int8) 1', 'Int8 Uniform'), ('!3', 'Bool Uniform'), ('!programIndex', 'Bool Varying'), ('(int8) 1 + (uint8) 2', 'Uint8 Uniform'),
    ('(int8) 1 * (int16) 2', 'Int16 Uniform'), ('(uint8) 1 * (int16) 2', 'Int16 Uniform'), ('(uint16) 1 / (int16) 2', 'Uint16 Uniform'), ('true + (int8) 1', 'Int8 Uniform'),
    ('(int8) 1 << (int64) 2', 'Int8 Uniform'), ('true << 1', 'Int32 Uniform'), ('1 >> programIndex', 'Int32 Varying'), ('(int8) 1 < programIndex', 'Bool Varying'),
    ('1 && programIndex', 'Bool Varying'), ('1 || 2', 'Bool Uniform'), ('(uint8) programIndex', 'Uint8 Varying'), ('(varying int8) 1', 'Int8 Varying'), ('(bool) 3', 'Bool Uniform'),
    ('reduce_add((int8) 1)', 'Int16 Uniform'), ('reduce_add((uint8) 1)', 'Uint16 Uniform'), ('reduce_add((int16) 1)', 'Int32 Uniform'), ('reduce_add(programIndex)', 'Int64 Uniform'),
    ('reduce_add(1u)', 'Uint64 Uniform'), ('reduce_add(1l)', 'Int64 Uniform'), ('reduce_add(true)', 'Int64 Uniform'), ('reduce_min(true)', 'Int32 Uniform'), ('reduce_max((uint8) 1)', 'Uint8 Uniform'),
    ('reduce_equal(programIndex)', 'Bool Uniform'), ('any(programIndex)', 'Bool Uniform'), ('packmask(programIndex)', 'Uint64 Uniform'), ('lanemask()', 'Uint64 Uniform'),
    ('popcnt(programIndex > 1)', 'Int32 Uniform'), ('popcnt((int8) 3)', 'Int32 Uniform'), ('popcnt(programIndex)', 'Int32 Varying'),
    ('broadcast((int8) 1, 0)', 'Int8 Varying'), ('extract(programIndex > 1, 0)', 'Bool Uniform'), ('insert((int8) 1, 0, 300)', 'Int8 Varying'), ('rotate(true, 1)', 'Bool Varying'), ('shift(1u, 1)', 'Uint32 Varying'),
    ('shuffle((int8) 1, 2)', 'Int8 Varying'), ('shuffle(true, true, 2)', 'Int32 Varying'), ('shuffle((int8) 1, 2u, 2)', 'Uint32 Varying'),
    ('exclusive_scan_add(true)', 'Int32 Varying'), ('exclusive_scan_and((uint8) 1)', 'Uint8 Varying'), ('min(true, (int8) 1)', 'Int32 Uniform'), ('max((int8) 1, (uint8) programIndex)', 'Uint8 Varying'),
    ('clamp((int8) 1, (uint16) 2, (int16) 3)', 'Uint16 Uniform'), ('clamp(programIndex, 0, 2)', 'Int32 Varying'), ('abs(true)', 'Int32 Uniform'), ('abs((int8) programIndex)', 'Int8 Varying'),
    ('select(programIndex > 1, true, false)', 'Bool Varying'), ('select(true, (int8) 1, true)', 'Int8 Uniform'),
]

# a source, a function's number and the names listed at each of its steps
LISTED = [
    ('int f(int k) {\nint r = k + 1;\nif (k > 1) return r;\nreturn f(r);\n}', 0, [['k'], ['k', 'r'], ['k', 'r'], ['k', 'r'], ['k', 'r']], 'the declaration, `if`, its `return`, `return f(r)`, the closing brace'),
    ('void f() { int a; if (true) { int b; return; } int c; }', 0, [[], ['a'], ['a'], ['a', 'b'], ['a'], ['a']], 'at the closing brace what the outermost block declares before the first `return`'),
    ('void f() { int a; int b; { int a; int c; } b = 1; }', 0, [[], ['a'], ['a', 'b'], ['b', 'a'], ['a', 'b'], ['a', 'b']], 'an inner declaration hides an outer one of its name'),
    ('uniform int g;\nvoid f() { for (int i = 0; i < 2; i++) int j; g = 1; }', 0, [[], ['i'], ['i'], ['i'], [], []], 'the start, the body, the update, the test'),
    ('void f(int i) { foreach (i = 0 ... 2, j = 0 ... 2) i == j; }'.replace('i == j', 'int x = i'), 0, [['i'], ['i', 'j'], ['i'], ['i']], 'the head, the body, the rounds'),
    ('void f() { foreach_active (a) ; foreach_unique (b in 1) { int c; c = 1; } }', 0, [[], [], [], ['b'], ['b', 'c'], [], []]),
    ('void f() { do int a; while (true); while (true) { int b; break; } }', 0, [[], [], [], ['b'], [], []], "the body's steps come before the test"),
    ('void f() { int a; switch (a) { case 1: { int b; b = 1; } case 2: a = 2; } }', 0, [[], ['a'], ['a'], ['a', 'b'], ['a'], ['a']]),
    ('void f() { }\nvoid g(int a, uniform int b[]) { }', 1, [['a', 'b']]),
]

# a file-scope variable and its first word
FIRST_WORDS = [
    ('int64 v = -5u;', 4294967291), ('int8 v = 300;', 44), ('int v = -1;', 18446744073709551615), ('uint8 v = -1;', 255), ('bool v = 7;', 1), ('bool v = true;', 1), ('uint v = true;', 1),
    ('int v = -2147483648;', 18446744071562067968), ('int64 v = 2147483648;', 2147483648), ('uint64 v = -1u;', 4294967295), ('uint64 v = -1;', 18446744073709551615), ('int v;', 0), ('int64 v = -1ul;', 18446744073709551615),
]

_seen = []
for _src in json.load(open(os.path.join(os.path.dirname(os.path.abspath(__file__)), 'worked_sources.json'))):
    if _src not in _seen:
        _seen.append(_src)
ACCEPTED = [row(_src) for _src in _seen] + [
    row('export void go() {\nint8 i = 1;\ni <<= programIndex; i %= 3; i--; ++i; i ^= true;\nbool b = i;\nb |= 4;\ncif (b) ; else { }\ncdo { } while (!b); cfor (; b; ) b = false; cwhile (b) { }\n}'),
    row('static inline int f(const uniform int8 a[], int b) { return a[b]; }\nconst uniform int8 t[4];\nexport uniform int go(uniform int n) {\nint x = f(&t[n], n);\nx = (f(t, 1));\nf((t), 2);\nreturn n;\n}'),
    row('varying int8 v = -1;\nexport void go() {\nfor (v = 0; v < 3; v += 1) { continue; }\nfor (step(); ; step()) break;\n}\nvoid step() { }'),
]
TABLES.append(('AcceptedRows', 'Rows of sources without a fault of names or types.', ACCEPTED))
