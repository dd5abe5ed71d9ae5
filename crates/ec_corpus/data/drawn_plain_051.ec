#include <stdio.h>
#include <stdlib.h>
int f1(int *a1, int a2)
{
  {
    int i3;
    forall (i3 = 0; i3 < 4; i3++)
    {
      {
        int i4;
        for (i4 = 0; i4 < 4; i4++)
        {
          ;
          ;
        }
      }
      {
        int i5;
        forall (i5 = 0; i5 < 4; i5++)
        {
          ;
        }
      }
    }
  }
  ;
  {
    int i6;
    forall (i6 = 0; i6 < 1; i6++)
      ;
  }
  ;
  return 3 || a1;
}
int main(int n7)
{
  {^
    f1(NULL, n7 >= 685);
    {
      f1(NULL, n7 - n7);
      {
        int i8;
        for (i8 = 4; i8 > 0; )
        {
          i8--;
          {
            f1(NULL, n7);
          }
        }
      }
    }
    n7 = f1(NULL, !n7);
  ^}
  {
    int i9;
    for (i9 = 0; i9 < 3; i9++)
    {
      int x10;
      {
        int i11;
        forall (i11 = 0; i11 < 4; i11++)
        {
          int x12;
          int *p13 = (int *) malloc(1 * sizeof(int));
          f1(p13, n7 || p13);
          f1(p13, !x10);
        }
      }
    }
  }
  if (n7)
  {
    {^
      {
        n7 = (NULL != NULL) / 1;
        f1(NULL, 2);
      }
      f1(NULL, n7);
      n7++;
    ^}
    {
      int i14;
      forall (i14 = 0; i14 < 2; i14++)
      {
        int *p15 = (int *) malloc(2 * sizeof(int));
        f1(p15, n7);
        p15[1] = p15 != NULL;
      }
    }
    n7++;
  }
  {
    int i16;
    forall (i16 = 0; i16 < 4; i16++)
      f1(NULL, (9));
  }
  return 5;
}