print(1)
{} + {}
