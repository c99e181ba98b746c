extern int hello;
extern int world;
int both;

void main(void){
	both = hello + world;
	write(1, "hello, world\n", hello);
	write(1, "\n", 1);
	write(1, "hello, world\n", both);
	exits(0);
}
