"""The machines, and the programs that are made for WebAssembly."""
import collections

# By its name: what it is, clang's words for it, and how clang lays out data there.
Machine = collections.namedtuple("Machine", "name what triple flags layout")
ARM = "e-m:e-p:32:32-Fi8-i64:64-v128:64:128-a:0:32-n32-S64"
MACHINES = {machine.name: machine for machine in (
    Machine("x86_64", "x86-64, Linux: the control", "x86_64-unknown-linux-gnu", ("-march=x86-64", "-O3"),
            "e-m:e-p270:32:32-p271:32:32-p272:64:64-i64:64-i128:128-f80:128-n8:16:32:64-S128"),
    Machine("aarch64", "ARM, 64 bits, Linux", "aarch64-unknown-linux-gnu", ("-O3",),
            "e-m:e-p270:32:32-p271:32:32-p272:64:64-i8:8:32-i16:16:32-i64:64-i128:128-n32:64-S128-Fn32"),
    Machine("riscv64", "RV64GC, Linux", "riscv64-unknown-linux-gnu", ("-march=rv64gc", "-mabi=lp64d", "-O3"), "e-m:e-p:64:64-i64:64-i128:128-n32:64-S128"),
    Machine("armv7", "ARM, 32 bits, Linux", "armv7-unknown-linux-gnueabihf", ("-mfpu=vfpv3-d16", "-O3"), ARM),
    Machine("thumbv6m", "Cortex-M0, no system", "thumbv6m-unknown-none-eabi", ("-Os",), ARM),
    Machine("thumbv7m", "Cortex-M3, no system", "thumbv7m-unknown-none-eabi", ("-Os",), ARM),
    Machine("thumbv7em", "Cortex-M4F, no system", "thumbv7em-unknown-none-eabihf", ("-Os",), ARM),
    Machine("riscv32", "RV32IMAC, no system", "riscv32-unknown-unknown-elf", ("-march=rv32imac", "-mabi=ilp32", "-Os"), "e-m:e-p:32:32-i64:64-n32-S128"),
    Machine("wasm32", "WebAssembly", "wasm32-unknown-unknown", ("-mbulk-memory", "-Os"),
            "e-m:e-p:32:32-p10:8:8-p20:8:8-i64:64-i128:128-n32:64-S128-ni:1:10:20"),
)}
CONTROL = MACHINES["x86_64"]
WASM = MACHINES["wasm32"]
# The processor that a module is made for: every one of x86-64.
CPU = "x86-64"
LIBRARY = "firmware_c"
PROGRAMS = {name: f"{name}_main" for name in ("lockers", "fastest", "losses", "journals")}
# The stack of a WebAssembly program; it lies lowest, so that to run past it is a trap.
STACK = 1 << 20
