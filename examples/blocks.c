/* Blocks of an archive box: encodes a batch, loses four blocks and rebuilds them, and shows how a wrong byte is refused. */
#include <stdio.h>
#include <string.h>

#include "axlebloom.h"
#include "axlebloom_blocks.h"

enum { M = 3, W = 6, C = 2, N = M * W, LENGTH = 16 };

int main(void) {
  static const char text[] = "Ten blocks of sixteen bytes hold one hundred and sixty characters; "
                             "the other eight hold checks. Byte x of every block makes word x, so there are sixteen words.   ";
  uint8_t blocks[N * LENGTH] = {0}, marks[N], whole[N * LENGTH];
  size_t used = 0;

  /* to encode, mark the check places as lost and rebuild */
  if (axlebloom_check_marks(M, W, C, marks, N)) return 1;
  for (int p = 0; p < N; p++) if (!marks[p]) memcpy(blocks + p * LENGTH, text + used, LENGTH), used += LENGTH;
  if (axlebloom_rebuild(M, W, C, LENGTH, blocks, sizeof blocks, marks, N).number) return 1;
  memcpy(whole, blocks, sizeof blocks);
  printf("%zu bytes of data in %d blocks\n", used, N);

  /* lose four blocks and rebuild them */
  for (int i = 0; i < 4; i++) marks[i * 5] = 1, memset(blocks + i * 5 * LENGTH, 0xFF, LENGTH);
  struct axlebloom_rebuild_answer answer = axlebloom_rebuild(M, W, C, LENGTH, blocks, sizeof blocks, marks, N);
  printf("rebuilt: %d, %s\n", answer.number, memcmp(blocks, whole, sizeof blocks) ? "different" : "the same");

  /* make byte 9 of block 7 wrong; that block is in group 1 */
  blocks[7 * LENGTH + 9] ^= 1;
  answer = axlebloom_rebuild(M, W, C, LENGTH, blocks, sizeof blocks, marks, N);
  printf("refused: %d, word %zu, group %d\n", answer.number, answer.word, answer.group);
  return 0;
}
