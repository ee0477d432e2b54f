# find_package(heideklonk) gives
#   heideklonk::heideklonk   the library's archive for the processor that is compiled for, and its headers
#   heideklonk::device_loop  the device loop's source, to be compiled into a firmware that has the functions of hardware.h
# The processor is asked of the compiler, with CMAKE_SYSTEM_PROCESSOR's flags as they stand in CMAKE_C_FLAGS. HEIDEKLONK_TARGET names a folder of lib/ instead.

get_filename_component(_hk_root "${CMAKE_CURRENT_LIST_DIR}/../.." ABSOLUTE)

# What the compiler says of the processor: its own macros.
function(_hk_ask_compiler macros)
  if(CMAKE_C_COMPILER)
    set(command ${CMAKE_C_COMPILER})
    separate_arguments(flags UNIX_COMMAND "${CMAKE_C_FLAGS}")
    set(language c)
  elseif(CMAKE_CXX_COMPILER)
    set(command ${CMAKE_CXX_COMPILER})
    separate_arguments(flags UNIX_COMMAND "${CMAKE_CXX_FLAGS}")
    set(language c++)
  else()
    message(FATAL_ERROR "heideklonk: call project() with C or CXX before find_package(heideklonk)")
  endif()
  execute_process(COMMAND ${command} ${flags} -x ${language} -dM -E - INPUT_FILE /dev/null OUTPUT_VARIABLE said ERROR_VARIABLE wrong RESULT_VARIABLE status)
  if(NOT status EQUAL 0)
    message(FATAL_ERROR "heideklonk: ${command} does not tell its processor: ${wrong}")
  endif()
  set(${macros} "${said}" PARENT_SCOPE)
endfunction()

function(_hk_choose chosen)
  _hk_ask_compiler(macros)
  set(target "")
  if(macros MATCHES "#define __ARM_ARCH_6M__ |#define __ARM_ARCH_8M_BASE__ ")
    set(target thumbv6m)
  elseif(macros MATCHES "#define __ARM_ARCH_7EM__ ")
    set(target thumbv7em)
  elseif(macros MATCHES "#define __ARM_ARCH_7M__ |#define __ARM_ARCH_8M_MAIN__ ")
    set(target thumbv7m)
  elseif(macros MATCHES "#define __riscv_xlen 32" AND macros MATCHES "#define __riscv_mul " AND macros MATCHES "#define __riscv_compressed "
         AND macros MATCHES "#define __riscv_float_abi_soft ")
    set(target riscv32imc)
  elseif(macros MATCHES "#define __linux__ " AND macros MATCHES "#define __x86_64__ " AND NOT macros MATCHES "#define __ILP32__ ")
    set(target x86_64-linux)
  elseif(macros MATCHES "#define __linux__ " AND macros MATCHES "#define __aarch64__ " AND NOT macros MATCHES "#define __AARCH64EB__ ")
    set(target aarch64-linux)
  endif()
  if(NOT target)
    file(GLOB there RELATIVE "${_hk_root}/lib" "${_hk_root}/lib/*")
    string(REPLACE ";" ", " there "${there}")
    message(FATAL_ERROR "heideklonk has no archive for this processor (CMAKE_SYSTEM_PROCESSOR \"${CMAKE_SYSTEM_PROCESSOR}\", compiler flags "
      "\"${CMAKE_C_FLAGS}\"). There are ${there}. For a microcontroller the flags must name it, as -mcpu=cortex-m0 or -march=rv32imc -mabi=ilp32, "
      "in CMAKE_C_FLAGS of the toolchain file. To choose one yourself, set HEIDEKLONK_TARGET.")
  endif()
  set(${chosen} ${target} PARENT_SCOPE)
endfunction()

if(NOT HEIDEKLONK_TARGET)
  _hk_choose(HEIDEKLONK_TARGET)
endif()
if(NOT EXISTS "${_hk_root}/lib/${HEIDEKLONK_TARGET}/libheideklonk.a")
  message(FATAL_ERROR "heideklonk: lib/${HEIDEKLONK_TARGET}/libheideklonk.a is not in this release")
endif()

if(NOT TARGET heideklonk::heideklonk)
  add_library(heideklonk::heideklonk STATIC IMPORTED)
  set_target_properties(heideklonk::heideklonk PROPERTIES
    IMPORTED_LOCATION "${_hk_root}/lib/${HEIDEKLONK_TARGET}/libheideklonk.a"
    INTERFACE_INCLUDE_DIRECTORIES "${_hk_root}/include")
  add_library(heideklonk::device_loop INTERFACE IMPORTED)
  set_target_properties(heideklonk::device_loop PROPERTIES
    INTERFACE_SOURCES "${_hk_root}/firmware/device.c"
    INTERFACE_INCLUDE_DIRECTORIES "${_hk_root}/firmware"
    INTERFACE_LINK_LIBRARIES heideklonk::heideklonk)
endif()
unset(_hk_root)
