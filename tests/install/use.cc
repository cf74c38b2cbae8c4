// A small user of an installed Netbuff, in C++: the layout of two blocks.
#include <netbuff_structs.h>

#include <iostream>
#include <vector>

int main()
{
    const std::vector<int32_t> types = {NETBUFF_DCT8, NETBUFF_HORNUSS}, muls = {0, 4};
    netbuff_layout_input input{};
    input.group.width = 16;
    input.group.height = 8;
    input.columns.types = types.data();
    input.columns.muls = muls.data();
    input.columns.length = types.size();
    input.filter = NETBUFF_FILTER_OFF;
    const size_t blocks = netbuff_blocks_of(&input.group);
    std::vector<int32_t> sharpness(blocks), hf_mul(blocks);
    std::vector<uint8_t> kinds(blocks);
    std::vector<float> sigma(blocks);
    input.sharpness = {sharpness.data(), sharpness.size()};
    netbuff_layout_output output{};
    output.blocks = {0, 0, kinds.data(), hf_mul.data(), blocks};
    output.sigma = sigma.data();
    output.sigma_length = blocks;
    const netbuff_refusal no = netbuff_read_layout(&input, &output);
    if (no.number != NETBUFF_ACCEPTED || netbuff_version() != NETBUFF_VERSION)
        return 1;
    std::cout << output.columns_used << " columns, hf_mul " << hf_mul[1] << '\n';
    return output.columns_used == 2 && hf_mul[1] == 5 ? 0 : 1;
}
