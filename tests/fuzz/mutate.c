/*
 * How libFuzzer changes inputs. Most changes of an image make it one that is refused, and
 * over such a one there is nothing for part.c to compare: so of its inputs mostly the edits
 * behind the image are changed, or the call in front of it, whose path goes on by names of the
 * image. All others are libFuzzer's own matter.
 */

#include "fuzz.h"

size_t LLVMFuzzerMutate(uint8_t *data, size_t size, size_t max_size);
size_t LLVMFuzzerCustomMutator(uint8_t *data, size_t size, size_t max_size, unsigned seed);

/* One of the names in an image of any bytes, of at least 20, or "..". */
static size_t pick_word(const uint8_t *image, size_t len, unsigned seed, uint8_t word[256])
{
    uint64_t entries = 20 + 12 * number_at(image + 4, 2) + 8 * number_at(image + 6, 2);
    uint64_t count = number_at(image + 8, 2), text = entries + 8 * count;
    if (seed % 4 != 0 && count != 0 && text <= len) {
        const uint8_t *entry = image + entries + 8 * (seed / 4 % count);
        uint64_t name = text + number_at(entry, 4), name_len = number_at(entry + 4, 2);
        if (name_len < 256 && name + name_len <= len) {
            memcpy(word, image + name, (size_t)name_len);
            return (size_t)name_len;
        }
    }
    memcpy(word, "..", 2);
    return 2;
}

/* Has a path go on with a word behind some of its bytes. */
static size_t go_on(uint8_t *path, size_t len, size_t room, const uint8_t *word, size_t word_len,
                    unsigned seed)
{
    len = seed % 3 == 0 ? seed / 3 % (len + 1) : len;
    if (len + 1 + word_len > room)
        len = 0;
    if (len > 0 && path[len - 1] != '/')
        path[len++] = '/';
    memcpy(path + len, word, word_len);
    return len + word_len;
}

/* Changes the path, with no more bytes than a name and a few others have. */
static size_t mutate_path(uint8_t *data, size_t size, size_t max_size, size_t image,
                          unsigned seed)
{
    uint8_t path[300], word[256];
    size_t len = (size_t)number_at(data + 4, 2), new_len;
    if (len > sizeof path || size + sizeof path > max_size)
        return LLVMFuzzerMutate(data, size, max_size);
    memcpy(path, data + 8, len);
    if (seed % 4 == 0) {
        new_len = LLVMFuzzerMutate(path, len, sizeof path);
    } else {
        size_t word_len = pick_word(data + image, size - image, seed / 4, word);
        new_len = go_on(path, len, sizeof path, word, word_len, seed / 64);
    }
    memmove(data + 8 + new_len, data + 8 + len, size - 8 - len);
    memcpy(data + 8, path, new_len);
    put_number(data + 4, new_len, 2);
    return size - len + new_len;
}

/* Changes what comes before the lengths, the handle above all. The kind stays. */
static size_t mutate_handle(uint8_t *data, size_t size)
{
    LLVMFuzzerMutate(data, 4, 4);
    data[0] = (data[0] & 31) | 192;
    return size;
}

size_t LLVMFuzzerCustomMutator(uint8_t *data, size_t size, size_t max_size, unsigned seed)
{
    if (size < 28 || (data[0] & 0xE0) != 0xC0 || seed % 16 == 0)
        return LLVMFuzzerMutate(data, size, max_size);
    size_t path_len = (size_t)number_at(data + 4, 2), how_len = (size_t)number_at(data + 6, 2);
    size_t image = 8 + path_len + how_len;
    if (image > size - 20 || number_at(data + image + 16, 4) > size - image)
        return LLVMFuzzerMutate(data, size, max_size);
    if (seed % 16 == 1)
        return mutate_handle(data, size);
    if (seed % 16 == 2 && how_len > 0) {
        LLVMFuzzerMutate(data + 8 + path_len, how_len, how_len);
        return size;
    }
    if (seed % 16 <= 5)
        return mutate_path(data, size, max_size, image, seed / 16);
    size_t tail = image + (size_t)number_at(data + image + 16, 4);
    if (tail == max_size) /* libFuzzer wants room for a byte */
        return LLVMFuzzerMutate(data, size, max_size);
    return tail + LLVMFuzzerMutate(data + tail, size - tail, max_size - tail);
}
