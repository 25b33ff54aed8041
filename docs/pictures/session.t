What the picture of a session shows, behind the first command. tools/draw.py plays it.

  $ printf ABCDEFGHIJKLMNOP > image
  $ bx xxd image
  00000000: 4142 4344 4546 4748 494a 4b4c 4d4e 4f50  ABCDEFGHIJKLMNOP
  $ echo '00000002: 7879 7a' | bx revert image
  $ bx xxd image
  00000000: 4142 7879 7a46 4748 494a 4b4c 4d4e 4f50  ABxyzFGHIJKLMNOP
  $ bx log image
  1 16 3
  $ cat image.bxj
  change2 00000001 0000000000000010
  00000002: 4344 45                                  CDE
  save 00000001
  done2 00000001 0000000000000010
  $ bx undo image
  0
  $ bx xxd image
  00000000: 4142 4344 4546 4748 494a 4b4c 4d4e 4f50  ABCDEFGHIJKLMNOP
  $ bx redo image
  1
  $ bx xxd image
  00000000: 4142 7879 7a46 4748 494a 4b4c 4d4e 4f50  ABxyzFGHIJKLMNOP
