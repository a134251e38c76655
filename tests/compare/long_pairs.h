/* Two sides of ten states each, found by search: ^ or . for a mark or none, then a letter for a name and a digit
 * for its target. The numbers are the lengths of the shortest runs. */
enum { LONG_PAIRS = 6 };

static const char *const long_pairs[LONG_PAIRS][2][10] = {
    /* 262 */
    {{".a1b0c9d0e6f0", "^a3b0c3d1e5f0", ".a0b1d2e0f2", ".a1b3c1d2f3", "^a9b4c6d9e1f3", "^a9b5c7d6f3", "^a1b6c8d1f3", "^a8b7d1f3", "^a9b8c5d6f3", "^a1b9c4d1e8f3"},
     {"^d8f5", "^a0b8c5f5", ".d2f6", ".b2f0", ".b3d3", "^a5b0", "^a1b8", ".b9d9", ".b7d7", ".b4d4"}},
    /* 240 */
    {{".b0c1d1e0", "^a6b9c9d9e6", "^b9c7e8", "^b9c5d2", "^b9", "^b9c8d3e1", "^a5b9c4d9e3", "^a2b9c6d3e4", "^b9c2d7e4", ".a0b1c3d0e3"},
     {"^b5", "^c9", ".b7d9", "^b8", "^b2", "^b3", "^b7", ".b6d1", "^b4", "^b0"}},
    /* 218 */
    {{".a0c3e7", "^a8b8d2e0", "^a5c6e0", "^a1d1e0", "^a6d6e0", "^a4e0", "^b4c3d5e0", "^a7c0e0", "^a9b0c5e0", "^a2b0c8e0"},
     {"^e8", ".a2c6e7", "^e0", "^e9", "^e3", "^e7", "^e1", "^a6", "^e4", "^e5"}},
    /* 237 */
    {{".b8c3d9", "^a9b0c6d5e4", "^a3b0c7", "^b0c6d4e9", "^b0d7e5", "^b0c0d2", "^b0c1d3e7", "^b0c2d1", "^a7b0d0", "^b0c1d6"},
     {"^b4", "^b5", "^b9", "^b7", "^b6d6", "^b3", "^b2", "^b0", "^b1", "^b8"}},
    /* 191 */
    {{"^a7b9c2e9", "^a3b9c0d9e4", "^a8b9d0", "^a2b9", ".", "^a6b9c6d4", "^b9", "^a1b9c7d8", "^a5b9e4", ".a0b4c6e9"},
     {"^b4", "^b9", "^b7", ".b3e6", "^b1", "^a0", "^b8", "^b5", ".b5e2", "^b3"}},
    /* 235 */
    {{".a3b0c2", "^a0c9", "^a0b4c4", "^a0b7c0", "^a0b9c8", "^a0b0c1", "^a0c7", "^a0", "^a0b0c5", "^a0b6c6"},
     {"^a8", "^a7", "^a9", "^a1", "^a6", "^a2", "^a5", "^c0", "^a4", "^a3"}},
};
