/* Ends at once: what a program of the host takes for its start. */
int main(void)
{
    return 0;
}
