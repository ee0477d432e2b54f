# Debian: gcc-arm-none-eabi and libnewlib-arm-none-eabi. Run: qemu-system-arm -M microbit -display none -semihosting -kernel out/example.elf
set(CMAKE_SYSTEM_NAME Generic)
set(CMAKE_SYSTEM_PROCESSOR cortex-m0)
set(CMAKE_C_COMPILER arm-none-eabi-gcc)
set(CMAKE_C_FLAGS_INIT "-mthumb -mcpu=cortex-m0")
set(CMAKE_TRY_COMPILE_TARGET_TYPE STATIC_LIBRARY)
set(BOARD_LINKER_SCRIPT cortex-m0.ld)
