// ns3: writes the subcarriers of every resource that EHT has as HE had it, by ns-3, a line for each: the bandwidth code, and
// what a listing says of the resource but for its users. These are all of 20 and of 40 MHz, and the 996s of 80 and 160 MHz. A
// 2x996 is not among them: ns-3 has it as -1012:-3,3:1012, which are 2,020 subcarriers. conformance/outside runs it.
#include <ns3/he-ru.h>

#include <iostream>

using ns3::HeRu;

namespace {

// Those of one size, by the name that a listing has for it, counted in each segment.
void write(unsigned code, const char* name, HeRu::RuType type, unsigned segments)
{
    const uint16_t megahertz = 20 << code;
    const std::size_t in_segment = HeRu::GetNRus(megahertz, type) / segments;
    for (std::size_t k = 0; k < in_segment * segments; k++) {
        std::cout << "bw=" << code << " ru=" << name << " index=" << k % in_segment + 1 << " segment=" << k / in_segment
                  << " tones=";
        const char* before = "";
        for (const auto& range : HeRu::GetSubcarrierGroup(megahertz, type, k + 1)) {
            std::cout << before << range.first << ':' << range.second;
            before = ",";
        }
        std::cout << '\n';
    }
}

} // namespace

int main()
{
    for (unsigned code = 0; code <= 1; code++) {
        write(code, "26", HeRu::RU_26_TONE, 1);
        write(code, "52", HeRu::RU_52_TONE, 1);
        write(code, "106", HeRu::RU_106_TONE, 1);
        write(code, "242", HeRu::RU_242_TONE, 1);
    }
    write(1, "484", HeRu::RU_484_TONE, 1);
    write(2, "996", HeRu::RU_996_TONE, 1);
    write(3, "996", HeRu::RU_996_TONE, 2);
    return std::cout.flush() ? 0 : 2;
}
