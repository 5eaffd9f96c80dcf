#!/usr/bin/env python3
"""optimize.py [--library ROOT OBJECT] TOP CLANG WORDS..: compiles the LLVM module of 'rt try' as a proved program is compiled.
optimize.py --main ROOT: prints the main function of a program that calls each function which a static library exports.
'compile-unproved' calls both.

CLANG WORDS.. is the call with which 'rt try' would compile the module. What it adds to find faults is taken out: its checks (each stands
before an 'unreachable', so that LLVM then takes for granted what a proof would show), what fills fresh memory with 170, and the address
sanitizer. Functions get the attributes for inlining that the sources ask for. With --library the program was made of a static library whose
root is the file ROOT: its module becomes OBJECT, which exports what the library does and can be linked into a shared object too."""
import functools
import re
import subprocess
import sys
from pathlib import Path

ATTRIBUTES = {'#[inline]': 'inlinehint', '#[inline(always)]': 'alwaysinline', '#[inline(never)]': 'noinline'}
FUNCTION = re.compile(r'(?:pub(?:\(\w+\))? )?(?:const )?(?:unsafe )?fn (\w+)')
CHECK = re.compile(r' *call void @("rattle-llvm-checks|llvm\.memset\..*, i8 -86,)')
DEFINED = re.compile(r'define .*@"(?P<path>[\w+]+(?:::[\w+]+)*)::(?P<name>\w+)(?:::<.*>)?"\(.* #0 \{$')


EXPORT = re.compile(r'pub extern "C" fn (\w+)\(([^)]*)\)')
# What a program gives for a parameter of this type.
GIVEN = {'Global': 'alloc', 'u32': '1', 'usize': '1', '&[u8]': '&bytes', '&mut [u8]': '&mut bytes', '&mut usize': '&mut count'}
MAIN = """
fn main(rt: HostRuntime) {{
    let alloc = rt.alloc();
    let (mut bytes, mut count) = ([0; 8], 0);
    let (mut handle, mut reader) = (closed(alloc), closed(alloc));
{calls}
}}
"""


def main_of(root):
    """The main function of a program that calls each function which the library of this root exports."""
    calls = []
    for name, parameters in EXPORT.findall(Path(root).read_text()):
        types = (it.split(':')[1].strip() for it in parameters.split(',') if ':' in it)
        handles = iter(('&mut handle', '&mut reader'))
        calls.append(f"    let _given = {name}({', '.join(GIVEN.get(it) or next(handles) for it in types)});")
    return MAIN.format(calls='\n'.join(calls))


@functools.cache
def names_of(root):
    """A pattern of the names under which a module has what the library of this root exports."""
    return re.compile('@"\\w+::(' + '|'.join(name for name, _ in EXPORT.findall(Path(root).read_text())) + ')"')


def exported(line, names):
    """A line of the module with these names, which C knows without the crate, and whether it defines one. There is no main function."""
    is_definition = line.startswith('define')
    if is_definition and '@main(' in line:
        return line.replace('define', 'define internal', 1), False
    is_export = is_definition and names.search(line.split('(')[0]) is not None
    line = names.sub(r'@\1', line)
    return (line.replace('define internal', 'define', 1) if is_export else line), is_export


def asked_in(file, crate, source):
    """The path of the module, and the name and attribute of each function of a file that asks for one."""
    module = '::'.join([crate, *file.relative_to(source).with_suffix('').parts]).removesuffix('::lib').removesuffix('::main')
    attribute = None
    for line in map(str.strip, file.read_text().splitlines()):
        if line in ATTRIBUTES:
            attribute = ATTRIBUTES[line]
        elif not line.startswith(('//', '#[')):
            if attribute and (function := FUNCTION.match(line)):
                yield module, function[1], attribute
            attribute = None


def asked(crates_of):
    """The attributes that the sources in these folders of crates ask for, by module and name."""
    found = {}
    for crates in crates_of:
        for source in crates.glob('*/src'):
            for file in source.rglob('*.rt'):
                found.update({(module, name): it for module, name, it in asked_in(file, source.parent.name, source)})
    return found


def attribute_of(line, attributes):
    """The attribute for the function that a line defines: asked for in its module, or in an implementation there."""
    function = DEFINED.match(line)
    if not function:
        return None
    module = function['path'].split('::')
    return next((it for end in range(len(module), 0, -1) if (it := attributes.get(('::'.join(module[:end]), function['name'])))), None)


def optimized(lines, attributes):
    for line in lines:
        if CHECK.match(line):
            continue
        if line.startswith('attributes #'):
            line = line.replace('sanitize_address ', '').replace('"frame-pointer"="all"', '"frame-pointer"="none"')
        elif line.startswith('define') and (attribute := attribute_of(line, attributes)):
            line = line.replace(' #0 {', f' {attribute} #0 {{')
        yield line


def main():
    words = sys.argv[1:]
    if words[0] == '--main':
        print(main_of(words[1]))
        return
    root, copy = words[1:3] if words[0] == '--library' else (None, None)
    top, clang, *words = words[3:] if root else words
    attributes = asked([Path(top) / 'crates', Path(clang).parents[2] / 'rattle'])
    module, made = words[words.index('ir') + 1], words[words.index('-o') + 1]
    ir = [clang, '--target=x86_64-unknown-linux-gnu', '-x', 'ir']
    subprocess.run([*ir, module, '-S', '-emit-llvm', '-Xclang', '-disable-llvm-passes', '-o', 'module.ll'], check=True)
    is_library = False
    with open('module.ll') as lines, open('optimized.ll', 'w') as out:
        for line in optimized(lines, attributes):
            if root:
                line, is_export = exported(line, names_of(root))
                is_library |= is_export
            out.write(line)
    compile_it = [*ir, 'optimized.ll', '-march=x86-64', '-O3', '-ffunction-sections', '-fdata-sections', '-c', '-o']
    if is_library:
        subprocess.run([*compile_it, copy, '-fPIC'], check=True)
        # 'rt try' runs a program too.
        subprocess.run([*ir, '-', '-c', '-o', made], check=True, text=True, input='define i32 @main() { ret i32 0 }')
    else:
        subprocess.run([*compile_it, made, '-fPIE'], check=True)


if __name__ == '__main__':
    main()
