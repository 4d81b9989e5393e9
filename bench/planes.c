// The C twin of planes: two planes a mask, and the places of the bits that are set.
#include <stdint.h>
#include <stdio.h>
#include <time.h>
typedef uint64_t u64;
#define K __attribute__((noinline)) static
static u64 now(void){struct timespec t;clock_gettime(CLOCK_MONOTONIC,&t);return t.tv_sec*1000000000ull+t.tv_nsec;}
#define BENCH(name,n,e) for(int rep_=0;rep_<9;rep_++){u64 s_=now();u64 c_=(u64)(e);u64 t_=now()-s_;printf("%s %lld %llu %llu\n",name,(long long)(n),(unsigned long long)t_,(unsigned long long)c_);}
#define EACH(r,e) ({u64 z_=0;for(int i=0;i<(r);i++){asm volatile(""::: "memory");z_+=(u64)(e);}z_;})
typedef struct{u64 t[16];size_t tn;u64 f[16];size_t fn;}mask;
K u64 and_(const mask*restrict a,mask*restrict o){for(int k=0;k<16;k++)o->t[k]&=a->t[k];for(int k=0;k<16;k++)o->f[k]|=a->f[k];return o->tn;}
K u64 or_(const mask*restrict a,mask*restrict o){for(int k=0;k<16;k++)o->t[k]|=a->t[k];for(int k=0;k<16;k++)o->f[k]&=a->f[k];return o->tn;}
K u64 not_(const mask*a,mask*restrict o){for(int k=0;k<16;k++)o->t[k]=a->f[k];o->tn=a->fn;for(int k=0;k<16;k++)o->f[k]=a->t[k];o->fn=a->tn;return o->tn;}
K u64 places(const mask*a,uint16_t*restrict o){size_t n=0;for(int k=0;k<16;k++)for(u64 r=a->t[k];r;r&=r-1)o[n++]=64*k+__builtin_ctzll(r);return n;}
K u64 keep(const mask*a,const uint16_t*restrict p,size_t m,uint16_t*restrict o){size_t n=0;for(size_t i=0;i<m;i++){o[n]=p[i];n+=a->t[p[i]/64]>>(p[i]%64)&1;}return n;}
static u64 next(u64 x){x^=x<<13;x^=x>>7;x^=x<<17;return x;}
static void known(u64 x,u64 y,mask*o){for(int k=0;k<16;k++){x=next(x);y=next(y);o->t[k]=x&~y;o->f[k]=~(x|y);}o->tn=o->fn=1024;}
static mask A,B,C;static uint16_t P[1024],Q[1024],R[1024];
#define HIDDEN(x) asm volatile("":"+r"(x)::"memory")
int main(void){
 void*read[]={&A,&B,&C,P,Q,R};for(int i=0;i<6;i++)HIDDEN(read[i]);
 known(88172645463325252ull,5555555,&A);known(1234567,7777777,&B);C=B;
 int r=20000;u64 n=r*1024ull;
 BENCH("and",n,EACH(r,and_(&A,&C)));
 BENCH("or",n,EACH(r,or_(&A,&C)));
 BENCH("not",n,EACH(r,not_(&A,&C)));
 r=500;n=r*1024ull;u64 some=places(&A,P);for(int i=0;i<1024;i++)R[i]=i;
 BENCH("set_true",n,EACH(r,places(&B,Q)));
 BENCH("keep_true_of_all",n,EACH(r,keep(&B,R,1024,Q)));
 BENCH("keep_true_of_some",r*some,EACH(r,keep(&B,P,some,Q)));
}
