// The headers in C++: they compile, their names link, and constants and messages are the ones that C has.
#include <metaqasm.h>
#include <metaqasm_showing.h>

#include "expect.h"

#include <cstring>
#include <string>
#include <vector>

static_assert(METAQASM_NOT_SHOWN == 12 && METAQASM_HAS_FAMILY_PARAMETER == 34, "constants can be used where C++ asks for one");

int main()
{
    // a qreg of 1, and h on its wire
    const std::vector<uint8_t> program{2, 2, 0, 1, 0, 32, 9, 0, 49, 6, 0, 0, 64, 2, 0, 0, 0};
    const std::vector<uint8_t> none;
    std::vector<uint8_t> output(METAQASM_RECORD_BYTES);
    auto *run = &metaqasm_run;

    expect(metaqasm_check(program.data(), program.size()).number == METAQASM_DONE, "check from C++", "0");
    expect(metaqasm_check(none.data(), none.size()).number == METAQASM_DONE, "check of an empty vector", "0");
    expect(metaqasm_check(nullptr, 0).number == METAQASM_DONE, "check of nullptr", "0");
    metaqasm_result result = run(program.data(), program.size(), 1, output.data(), output.size());
    expect(result.number == METAQASM_DONE && result.records == 1 && output[0] == METAQASM_OP_H, "run from C++", "h");
    result = metaqasm_instance(program.data(), program.size(), 0, none.data(), none.size(), 1, nullptr, 0);
    expect(result.number == METAQASM_NO_SUCH_FAMILY, "instance from C++", "20");
    std::string text(METAQASM_TEXT_BYTES(output.size() / METAQASM_RECORD_BYTES, 0), '?');
    metaqasm_text_result printed = metaqasm_run_text(program.data(), program.size(), 1, output.data(), output.size(),
                                                     reinterpret_cast<uint8_t *>(&text[0]), text.size());
    text.resize(printed.length);
    expect(printed.number == METAQASM_DONE && text == "OPENQASM 2.0;\ninclude \"qelib1.inc\";\nqreg q[1];\nh q[0];\n",
           "a text in C++", "four lines");
    printed = metaqasm_instance_text(program.data(), program.size(), 0, none.data(), none.size(), 1, nullptr, 0, nullptr, 0);
    expect(printed.number == METAQASM_NO_SUCH_FAMILY && printed.length == 0, "instance_text from C++", "20");
    // n - 1 - i, inside i = 1..n-1
    const metaqasm_form form{-1, {1, -1}};
    const std::vector<metaqasm_form> lows{{1, {0}}}, highs{{-1, {1}}};
    metaqasm_showing_result shown = metaqasm_showing(&form, 1, 1, lows.data(), lows.size(), highs.data(), highs.size());
    expect(shown.number == METAQASM_DONE && shown.through == 1 && shown.trials == 0, "a showing from C++", "0, 1, 0");
    expect(std::strstr(metaqasm_message(result.number), "no family") != nullptr, "20", "a sentence with `no family`");
    expect(std::strstr(metaqasm_message(14), "no call") != nullptr, "14", "a sentence that says that it is unknown");
    return closed();
}
