int count = 5;
