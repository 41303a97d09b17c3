/* Puts 255 to port 2 and ends with 8. Blanks, comments and the way in which
   a number is written don't matter. */
int main(void)
{
	__out(0x2, 0XFF);	/* a tab stands before this comment */
	return 010;
}
