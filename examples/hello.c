void main(void){ exits("hello"); }
