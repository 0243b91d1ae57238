/* The calls of include/mvb.h, each as FACE(name): whoever includes this has said under which names. */
uint32_t FACE(check_of)(const uint8_t *block, size_t length);
uint32_t FACE(master_read)(const uint8_t *frame, size_t length);
uint32_t FACE(master_write)(uint16_t word, uint8_t *out, size_t room);
uint32_t FACE(slave_read)(uint8_t f_code, const uint8_t *frame, size_t length, uint8_t *out, size_t room);
uint32_t FACE(slave_write)(uint8_t f_code, const uint8_t *data, size_t length, uint8_t *out, size_t room);
uint32_t FACE(telegram_bits)(uint8_t f_code, uint16_t gap);
uint32_t FACE(guard)(uint32_t left, uint16_t gap, uint8_t f_code);
uint32_t FACE(round_start)(uint16_t params, uint16_t *round, size_t numbers);
uint32_t FACE(round_answer)(uint16_t *round, size_t numbers, const uint8_t *bytes, size_t length);
uint32_t FACE(search)(const uint8_t *set, size_t length, uint16_t *out, size_t places, uint16_t *requests);
uint32_t FACE(list_check)(const uint8_t *list, size_t length, uint16_t *ms, uint16_t *gap, uint16_t *reserve);
uint32_t FACE(basic_period)(const uint8_t *list, size_t length, uint16_t j, uint16_t *out, size_t places);
uint32_t FACE(list_text)(const uint8_t *list, size_t length, uint8_t *out, size_t room);
uint32_t FACE(arrive)(const struct mvb_port *table, size_t records, uint8_t *store, size_t store_bytes,
                      uint16_t *ages, size_t ages_count, uint16_t word, const uint8_t *frame, size_t length);
uint32_t FACE(answer)(const struct mvb_port *table, size_t records, const uint8_t *store, size_t store_bytes,
                      uint16_t word, uint8_t *out, size_t room);
uint32_t FACE(read)(const struct mvb_port *table, size_t records, const uint8_t *store, size_t store_bytes,
                    const uint16_t *ages, size_t ages_count, uint16_t address, uint8_t *out, size_t room,
                    uint16_t *age);
uint32_t FACE(fill)(const struct mvb_port *table, size_t records, uint8_t *store, size_t store_bytes,
                    uint16_t address, const uint8_t *data, size_t length);
uint32_t FACE(tick)(const struct mvb_port *table, size_t records, uint16_t *ages, size_t ages_count);
