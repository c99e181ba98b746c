extern int count;
int total;

void main(void)
{
	total = count + 2;
	write(1, "shared\n", total);
	exits(0);
}
