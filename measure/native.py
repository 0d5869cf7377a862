#!/usr/bin/env python3
"""native.py OUT CRATE [TARGET]: writes OUT/libCRATE.a, the static library of that crate for another processor than x86-64: for
aarch64-unknown-linux-gnu, or the TARGET that is given. c/build has it proved and compiled by the toolchain, which runs on x86-64 alone;
./bench on the other machine then takes it from the folder that KNOTSADDLE_LIB_DIR names. Nothing but ./bench uses it.
"""
import os
import shutil
import subprocess
import sys

top = os.path.dirname(os.path.dirname(os.path.abspath(__file__)))
out, crate = sys.argv[1:3]
target = sys.argv[3] if len(sys.argv) > 3 else 'aarch64-unknown-linux-gnu'
subprocess.run([f'{top}/c/build', '--target', target, crate], check=True)
os.makedirs(out, exist_ok=True)
print(shutil.copy(f'{top}/target/staticlib/{target}/lib{crate}.a', out))
