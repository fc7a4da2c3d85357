/* ---- numbers of several bytes in structs: big-endian */
static inline uint16_t pothatch_u16(const uint8_t p[2]) { return (uint16_t)((p[0] << 8) | p[1]); }
static inline uint32_t pothatch_u32(const uint8_t p[4]) { return ((uint32_t)pothatch_u16(p) << 16) | pothatch_u16(p + 2); }
static inline uint64_t pothatch_u64(const uint8_t p[8]) { return ((uint64_t)pothatch_u32(p) << 32) | pothatch_u32(p + 4); }
static inline void pothatch_put16(uint8_t p[2], uint16_t v) { p[0] = (uint8_t)(v >> 8); p[1] = (uint8_t)v; }
static inline void pothatch_put32(uint8_t p[4], uint32_t v) { pothatch_put16(p, (uint16_t)(v >> 16)); pothatch_put16(p + 2, (uint16_t)v); }
static inline void pothatch_put64(uint8_t p[8], uint64_t v) { pothatch_put32(p, (uint32_t)(v >> 32)); pothatch_put32(p + 4, (uint32_t)v); }
